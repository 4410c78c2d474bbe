"""A driver of mosquitto's bridge: a client that does what it is told on do/#.  mosquitto_bridge.py PORT CLIENT_IDENTIFIER
It starts a mosquitto that is bridged to the port, in which a mosquitto_sub that was there before reads do/it, and mosquitto_pub
publishes. The bridge subscribes to do/# by itself, and to nothing else."""
import os
import signal
import subprocess
import sys
import tempfile
import time
from pathlib import Path

SETTINGS = """{user}listener 1883 {own}
allow_anonymous true
queue_qos0_messages true
persistence true
persistence_location {folder}/
"""
BRIDGE = """connection bridge
address 127.0.0.1:{port}
remote_clientid {name}
bridge_protocol_version mqttv50
cleansession false
try_private false
notifications false
keepalive_interval 5
restart_timeout 1
topic do/# in 2
topic echo/# out 2
"""


def obey(own, task):
    if task[:1] in (["pub"], ["keep"]) and len(task) == 4:
        keeping = ["-r"] if task[0] == "keep" else []
        subprocess.run(["mosquitto_pub", "-V", "5", "-h", own, "-q", task[1], "-t", "echo/t", "--repeat", task[2], *keeping,
                        "-m", "x" * int(task[3])])


def main(port, name, own):
    signal.signal(signal.SIGTERM, lambda *_: sys.exit())
    reading = ["mosquitto_sub", "-V", "5", "-h", own, "-i", "reader", "-c", "-x", "300", "-q", "2", "-t", "do/it",
               "-W", "60"]
    with tempfile.TemporaryDirectory() as folder:
        settings = Path(folder, "mosquitto.conf")
        settings.write_text(SETTINGS.format(user="" if os.geteuid() else "user root\n", own=own, folder=folder))
        children = [subprocess.Popen(["mosquitto", "-c", settings])]
        try:
            while subprocess.run([*reading, "-E"], stderr=subprocess.DEVNULL).returncode:  # until it listens
                time.sleep(0.05)
            children[0].terminate()
            children[0].wait()
            settings.write_text(settings.read_text() + BRIDGE.format(port=port, name=name))
            children[0] = subprocess.Popen(["mosquitto", "-c", settings])
            while children[0].poll() is None:
                children[1:] = [subprocess.Popen(reading, stdout=subprocess.PIPE, stderr=subprocess.DEVNULL, text=True)]
                for line in children[1].stdout:
                    obey(own, line.split())
        finally:
            for child in children:
                child.terminate()
                child.wait()


number = os.getpid()  # for a loopback address that no other such driver has
main(*sys.argv[1:3], f"127.{number >> 16 & 127 | 128}.{number >> 8 & 255}.{number & 255}")
