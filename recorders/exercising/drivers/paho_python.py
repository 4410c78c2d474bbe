"""A driver of paho-mqtt for Python: a client that does what it is told on do/#.  paho_python.py PORT CLIENT_IDENTIFIER [METHOD]"""
import sys

import paho.mqtt.client as mqtt
from paho.mqtt.packettypes import PacketTypes
from paho.mqtt.properties import Properties
from paho.mqtt.reasoncodes import ReasonCodes


def on_connect(client, userdata, flags, reason, properties=None):
    if not flags.get("session present"):
        client.subscribe("do/#", 2)


def on_message(client, userdata, message):
    words = message.payload.decode("utf-8", "replace").split()
    if message.topic != "do/it" or not words:
        return
    if words[0] in ("pub", "keep"):
        qos, count, size = map(int, words[1:4])
        for _ in range(count):
            client.publish("echo/t", "x" * size, qos, words[0] == "keep")
    elif words[0] == "sub":
        client.subscribe(words[1], int(words[2]))
    elif words[0] == "number":
        identifier = Properties(PacketTypes.SUBSCRIBE)
        identifier.SubscriptionIdentifier = 1
        client.subscribe(words[1], int(words[2]), properties=identifier)
    elif words[0] == "unsub":
        client.unsubscribe(words[1])
    elif words[0] == "bye":
        code = int(words[1], 16) if words[1:] else 0
        client.disconnect(ReasonCodes(PacketTypes.DISCONNECT, identifier=code) if code else None)


client = mqtt.Client(sys.argv[2], protocol=mqtt.MQTTv5)
client.on_connect, client.on_message = on_connect, on_message
client.reconnect_delay_set(1, 1)
properties = Properties(PacketTypes.CONNECT)
properties.SessionExpiryInterval, properties.TopicAliasMaximum, properties.ReceiveMaximum = 300, 5, 60
if sys.argv[3:] and sys.argv[3]:
    properties.AuthenticationMethod = sys.argv[3]
client.connect("127.0.0.1", int(sys.argv[1]), 5, clean_start=False, properties=properties)
client.loop_forever(retry_first_connection=True)
