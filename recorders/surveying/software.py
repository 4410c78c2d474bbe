"""The brokers and clients that are surveyed: what each needs, which version is there, and how it is put to the test."""
from __future__ import annotations

import gzip
import os
import shlex
import shutil
import socket
import subprocess
import sys
from collections.abc import Callable
from dataclasses import dataclass
from functools import partial
from pathlib import Path

HOST = "127.0.0.1"
PATHS = os.pathsep.join((os.environ.get("PATH", os.defpath), "/usr/sbin", "/usr/local/sbin"))  # of servers
ROOT = Path("/")  # below which packages are installed
BACKPORTS = Path("backports").absolute()  # below which those of the backports may be unpacked, beside the others
INCLUDED = ("usr/include", "usr/local/include")  # below the root
PYTHONS = (sys.executable, "/usr/bin/python3")  # a system's modules are for its own Python
NODE_MODULES = "/usr/share/nodejs"  # where Debian has those of Node.js
DRIVERS = Path(__file__).resolve().parent.parent / "exercising/drivers"
ASK_SECONDS = 60
BROKER, CLIENT = "broker", "client"
DENIED = "denied/x"
MOSQUITTO = """{user}listener {port} 127.0.0.1
allow_anonymous true
persistence true
persistence_location {folder}/
autosave_interval 1
autosave_on_changes true
sys_interval 1
max_packet_size 200000
message_size_limit 50000
acl_file {folder}/acl
password_file {folder}/passwd
{more}"""
LIMITS = """max_qos 1
retain_available false
"""
EJABBERD = """hosts:
  - localhost
loglevel: info
listen:
  -
    port: {port}
    ip: "127.0.0.1"
    module: mod_mqtt
auth_method: [anonymous]
anonymous_protocol: login_anon
allow_multiple_connections: true
modules:
  mod_mqtt:
    session_expiry: 5 minutes
    access_publish:
      "denied/#":
        - deny
      "#":
        - allow
    access_subscribe:
      "denied/#":
        - deny
      "#":
        - allow
"""
EJABBERD_PLACES = ("usr/lib/*/ejabberd-*", "usr/lib/ejabberd*", "usr/local/lib/ejabberd*",
                   "opt/ejabberd*/lib/ejabberd-*")  # below the root
USER = "one"  # ejabberd lets nobody in without a user's name


class Missing(Exception):
    """What isn't there, in words."""


@dataclass(frozen=True)
class Software:
    """A broker or a client, and how it is put to the test."""

    name: str
    what: str  # in words
    package: str  # Debian's, whose version is the software's
    end: str
    prepare: Callable[[Path], list[str]]  # the exerciser's words for it, with what was made in a folder; raises Missing
    also: tuple[str, ...] = ()  # other packages of Debian's that it takes
    root: Path = ROOT  # below which its files are

    @property
    def packages(self) -> tuple[str, ...]:
        return (self.package, *self.also)

    @property
    def version(self) -> str:
        """The version of its package; in words where that isn't known."""
        if self.root != ROOT:
            return unpacked_version(self.root, self.package)
        try:
            answer = subprocess.run(["dpkg-query", "-W", "-f", "${Version}", self.package], capture_output=True,
                                    text=True, timeout=ASK_SECONDS)
        except OSError:
            return "of no package"
        return answer.stdout.strip() if answer.returncode == 0 and answer.stdout.strip() else "of no package"


def unpacked_version(root: Path, package: str) -> str:
    """The version of a package that was unpacked, from the first line of its changes."""
    try:
        with gzip.open(root / f"usr/share/doc/{package}/changelog.Debian.gz", "rt", encoding="utf-8") as changes:
            return changes.readline().partition("(")[2].partition(")")[0]
    except OSError:
        return "of no package"


# ---- what has to be there


def program(name: str, root: Path = ROOT) -> str:
    found = shutil.which(name, path=paths(root))
    if found is None:
        raise Missing(f"{name} isn't {there(root)}")
    return found


def there(root: Path) -> str:
    return "installed" if root == ROOT else f"unpacked in {root}"


def paths(root: Path) -> str:
    """Where programs are, of those below a root."""
    return PATHS if root == ROOT else os.pathsep.join((f"{root}/usr/sbin", f"{root}/usr/bin"))


def loading(root: Path) -> list[str]:
    """The words before a command that let it find the libraries below a root."""
    return [] if root == ROOT else ["env", f"LD_LIBRARY_PATH={library_folder(root)}"]


def library_folder(root: Path) -> Path:
    found = sorted(root.glob("usr/lib/*/libmosquitto.so.1"))
    if not found:
        raise Missing(f"libmosquitto isn't {there(root)}")
    return found[0].parent


def compiled(folder: Path, source: str, header: str, *libraries: str, root: Path = ROOT) -> str:
    """A driver, made from its source."""
    compiler = program("c++" if source.endswith(".cpp") else "cc")
    if not any((root / place / header).exists() for place in INCLUDED):
        raise Missing(f"{header} isn't {there(root)}")
    driver = folder / Path(source).stem
    words = [compiler, *(("-std=c++17",) if source.endswith(".cpp") else ()), "-o", str(driver), str(DRIVERS / source)]
    if root != ROOT:
        words += [f"-I{root}/{INCLUDED[0]}", f"-L{library_folder(root)}"]
    answer = subprocess.run([*words, *(f"-l{library}" for library in libraries)], capture_output=True, text=True)
    if answer.returncode != 0:
        raise Missing(f"{source} can't be compiled: {(answer.stderr.splitlines() or ['it said nothing'])[-1]}")
    return str(driver)


def answers(words: list[str], variables: dict[str, str] | None = None) -> bool:
    """Whether a command ends well."""
    try:
        return subprocess.run(words, capture_output=True, timeout=ASK_SECONDS, env=os.environ | (variables or {})
                              ).returncode == 0
    except (OSError, subprocess.TimeoutExpired):
        return False


def free_port() -> int:
    with socket.create_server((HOST, 0)) as listener:
        return int(listener.getsockname()[1])


# ---- brokers


def mosquitto(folder: Path, more: str = "", root: Path = ROOT) -> list[str]:
    broker, passwords, port = program("mosquitto", root), program("mosquitto_passwd"), free_port()
    (folder / "acl").write_text("topic readwrite #\ntopic readwrite $SYS/#\ntopic deny denied/#\n")
    (folder / "passwd").touch()
    if not answers([passwords, "-b", str(folder / "passwd"), "right", "right"]):
        raise Missing("mosquitto_passwd doesn't make a password file")
    settings = folder / "mosquitto.conf"
    user = "" if os.geteuid() else "user root\n"
    settings.write_text(MOSQUITTO.format(user=user, port=port, folder=folder, more=more))
    return [f"{HOST}:{port}", "--denied", DENIED, "--wrong-password", "wrong",
            "--start", shlex.join([*loading(root), broker, "-c", str(settings)])]


def mosquitto_with_limits(folder: Path) -> list[str]:
    """mosquitto where it announces Maximum QoS 1 and Retain Available 0."""
    return mosquitto(folder, LIMITS)


def ejabberd(folder: Path, root: Path = ROOT) -> list[str]:
    """ejabberd in the foreground, with nothing but MQTT, and no node that others could reach."""
    beams, erl, port = ejabberd_beams(root), program("erl"), free_port()
    (folder / "spool").mkdir(exist_ok=True)
    settings, log = folder / "ejabberd.yml", folder / "ejabberd.log"
    settings.write_text(EJABBERD.format(port=port))
    words = ["env", f"HOME={folder}", f"EJABBERD_LOG_PATH={log}", erl, "+K", "true", "-noinput", "+S", "1:1",
             "-pa", *map(str, beams), "-mnesia", "dir", f'"{folder}/spool"', "-ejabberd", "config", f'"{settings}"',
             "log_path", f'"{log}"', "-start_epmd", "false", "-s", "ejabberd"]
    return [f"{HOST}:{port}", "--denied", DENIED, "--user", USER, "--password", USER, "--start", shlex.join(words)]


def ejabberd_beams(root: Path) -> list[Path]:
    """The folders of ejabberd's own modules; and of those that it uses, where these aren't installed."""
    found = [path for place in EJABBERD_PLACES for path in sorted(root.glob(f"{place}/ebin/mod_mqtt.beam"))]
    if not found:
        raise Missing(f"ejabberd isn't {there(root)}")
    return [found[0].resolve().parent, *([] if root == ROOT else sorted(root.glob("usr/lib/erlang/lib/*/ebin")))]


# ---- clients


def command(*words: str, does: str = "driver") -> list[str]:
    return ["--does", does, "--", *words]


def paho_python(folder: Path) -> list[str]:
    python = next((one for one in PYTHONS if answers([one, "-c", "import paho.mqtt.client"])), None)
    if python is None:
        raise Missing("paho-mqtt for Python isn't installed")
    return command(python, str(DRIVERS / "paho_python.py"), "{port}", "{id}", "{method}")


def paho_c(folder: Path) -> list[str]:
    return command(compiled(folder, "paho_c.c", "MQTTAsync.h", "paho-mqtt3a"), "{port}", "{id}", "{method}")


def paho_c_sync(folder: Path) -> list[str]:
    return command(compiled(folder, "paho_c_sync.c", "MQTTClient.h", "paho-mqtt3c"), "{port}", "{id}", "{method}")


def paho_cpp(folder: Path) -> list[str]:
    driver = compiled(folder, "paho_cpp.cpp", "mqtt/async_client.h", "paho-mqttpp3", "paho-mqtt3a")
    return command(driver, "{port}", "{id}", "{method}")


def libmosquitto(folder: Path, root: Path = ROOT) -> list[str]:
    driver = compiled(folder, "mosquitto.c", "mosquitto.h", "mosquitto", root=root)
    return command(*loading(root), driver, "{port}", "{id}", "{method}")


def mqtt_js(folder: Path) -> list[str]:
    node = program("node")
    paths = os.pathsep.join(filter(None, (os.environ.get("NODE_PATH"), NODE_MODULES)))
    if not answers([node, "-e", "require('mqtt')"], {"NODE_PATH": paths}):
        raise Missing("MQTT.js isn't installed")
    return command("env", f"NODE_PATH={paths}", node, str(DRIVERS / "mqtt_js.js"), "{port}", "{id}", "{method}")


def mosquitto_bridge(folder: Path, root: Path = ROOT) -> list[str]:
    for name in ("mosquitto", "mosquitto_pub", "mosquitto_sub"):
        program(name, root)
    return command(*(loading(root) or ["env"]), f"PATH={paths(root)}", sys.executable,
                   str(DRIVERS / "mosquitto_bridge.py"), "{port}", "{id}")


def mosquitto_pub(folder: Path) -> list[str]:
    return command(program("mosquitto_pub"), "-V", "5", "-p", "{port}", "-i", "{id}", "-c", "-x", "300", "-q", "{qos}",
                   "-t", "echo/t", "-m", "hello", "--repeat", "{n}", does="publish")


def mosquitto_sub(folder: Path) -> list[str]:
    return command(program("mosquitto_sub"), "-V", "5", "-p", "{port}", "-i", "{id}", "-c", "-x", "300", "-q", "2",
                   "-k", "5", "-t", "do/#", does="subscribe")


SOFTWARE = (
    Software("mosquitto", "mosquitto", "mosquitto", BROKER, mosquitto),
    Software("mosquitto-bpo", "mosquitto, of the backports", "mosquitto", BROKER, partial(mosquitto, root=BACKPORTS),
             ("libmosquitto1",), BACKPORTS),
    Software("mosquitto-limits", "mosquitto with Maximum QoS 1 and Retain Available 0", "mosquitto", BROKER,
             mosquitto_with_limits),
    Software("ejabberd", "ejabberd, with its listener for MQTT", "ejabberd", BROKER, ejabberd),
    Software("ejabberd-bpo", "ejabberd, of the backports", "ejabberd", BROKER, partial(ejabberd, root=BACKPORTS),
             root=BACKPORTS),
    Software("mosquitto-bridge", "a mosquitto's bridge", "mosquitto", CLIENT, mosquitto_bridge, ("mosquitto-clients",)),
    Software("bridge-bpo", "a mosquitto's bridge, of the backports", "mosquitto", CLIENT,
             partial(mosquitto_bridge, root=BACKPORTS), ("mosquitto-clients", "libmosquitto1"), BACKPORTS),
    Software("libmosquitto", "libmosquitto, by a driver", "libmosquitto1", CLIENT, libmosquitto,
             ("libmosquitto-dev", "gcc")),
    Software("libmosquitto-bpo", "libmosquitto of the backports, by a driver", "libmosquitto1", CLIENT,
             partial(libmosquitto, root=BACKPORTS), ("libmosquitto-dev", "gcc"), BACKPORTS),
    Software("mosquitto_pub", "mosquitto_pub", "mosquitto-clients", CLIENT, mosquitto_pub),
    Software("mosquitto_sub", "mosquitto_sub", "mosquitto-clients", CLIENT, mosquitto_sub),
    Software("paho-c", "paho for C, MQTTAsync, by a driver", "libpaho-mqtt1.3", CLIENT, paho_c,
             ("libpaho-mqtt-dev", "gcc")),
    Software("paho-c-sync", "paho for C, MQTTClient, by a driver", "libpaho-mqtt1.3", CLIENT, paho_c_sync,
             ("libpaho-mqtt-dev", "gcc")),
    Software("paho-cpp", "paho for C++, by a driver", "libpaho-mqttpp3-1", CLIENT, paho_cpp,
             ("libpaho-mqttpp-dev", "libpaho-mqtt-dev", "g++")),
    Software("paho-python", "paho for Python, by a driver", "python3-paho-mqtt", CLIENT, paho_python),
    Software("mqtt-js", "MQTT.js, by a driver", "node-mqtt", CLIENT, mqtt_js, ("nodejs",)),
)
