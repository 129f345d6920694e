"""Ten messages at QoS 2 from one paho client to another: 'N of 10', those that came once and in order."""
import sys
import threading

import paho.mqtt.client as mqtt

port = int(sys.argv[1])
came, done, ready = [], threading.Event(), threading.Event()


def on_message(client, _, message):
    came.append(int(message.payload))
    if len(came) >= 10:
        done.set()


receiver = mqtt.Client("paho-r", protocol=mqtt.MQTTv5)
receiver.on_message = on_message
receiver.on_subscribe = lambda *_: ready.set()
receiver.connect("127.0.0.1", port)
receiver.loop_start()
receiver.subscribe("paho/t", 2)
ready.wait(10)
sender = mqtt.Client("paho-s", protocol=mqtt.MQTTv5)
sender.connect("127.0.0.1", port)
sender.loop_start()
for number in range(10):
    sender.publish("paho/t", str(number), 2).wait_for_publish()
done.wait(20)
print(sum(1 for place, number in enumerate(came) if place == number), "of", 10)
for client in (sender, receiver):
    client.disconnect()
    client.loop_stop()
