"""What tshark reads in a stream of packets: an object a packet, with the members that `mqtt5 view --json` has.

tshark reads a capture of one TCP connection, a segment a packet, behind a CONNECT by which it knows that the packets are of MQTT 5.0.
"""
import shutil
import struct
import subprocess
import xml.etree.ElementTree as tree

KINDS = ["", "CONNECT", "CONNACK", "PUBLISH", "PUBACK", "PUBREC", "PUBREL", "PUBCOMP", "SUBSCRIBE", "SUBACK", "UNSUBSCRIBE", "UNSUBACK", "PINGREQ", "PINGRESP", "DISCONNECT", "AUTH"]
CONNECT = b"\x10\x10\x00\x04MQTT\x05\x02\x00\x3c\x00\x00\x03abc"
RAW_IP, PORTS, HOSTS = 101, (40000, 1883), (b"\x7f\0\0\x01", b"\x7f\0\0\x02")


def is_here():
    return shutil.which("tshark") is not None


def capture(packets):
    """A capture file in which each packet is a segment of one connection."""
    out, place = [struct.pack("<IHHiIII", 0xA1B2C3D4, 2, 4, 0, 0, 262144, RAW_IP)], 1
    for number, packet in enumerate(packets):
        tcp = struct.pack(">HHIIBBHHH", *PORTS, place, 1, 0x50, 0x18, 65535, 0, 0)
        whole = struct.pack(">BBHHHBBH4s4s", 0x45, 0, 40 + len(packet), number & 0xFFFF, 0, 64, 6, 0, *HOSTS) + tcp + packet
        out.append(struct.pack("<IIII", number // 1000, number % 1000 * 1000, len(whole), len(whole)) + whole)
        place += len(packet)
    return b"".join(out)


def octets(field):
    return bytes.fromhex(field.get("value") or "")


def text(field):
    return octets(field).decode()


def number(field):
    return int(field.get("show"), 0)


def properties(fields, table):
    """A block of properties, in order; `table` has the name of each and how its value is written."""
    found, name, how, key = [], "", "", ""
    for field in fields:
        kind = field.get("name").removeprefix("mqtt.").removeprefix("property.")
        if kind == "property_id":
            name, how = table[number(field)]
        elif kind == "prop_key":
            key = text(field)
        elif kind == "prop_value":
            found.append({"name": name, "value": [key, text(field)]})
        elif kind == "content_type":
            # (its two octets of length are part of it)
            found.append({"name": name, "value": octets(field)[2:].decode()})
        elif kind in ("prop_number", "max_qos", "topic_alias"):
            found.append({"name": name, "value": number(field)})
        elif kind == "prop_string":
            found.append({"name": name, "value": octets(field).hex() if how == "binary" else text(field)})
    return found


def will_of(found, blocks, table):
    payload = found.get("willmsg", [None])[0]
    return {
        "qos": number(found["conflag.qos"][0]),
        "retain": number(found["conflag.retain"][0]) == 1,
        "topic": text(found["willtopic"][0]),
        "payload": len(octets(payload)) if payload is not None else 0,
        "properties": properties(blocks.get("will_properties", []), table),
    }


def filters(found, kind):
    if kind == "UNSUBSCRIBE":
        return [{"filter": text(it)} for it in found["topic"]]
    options = zip(*(found[f"subscription_options_{it}"] for it in ("qos", "nl", "rap", "retain")))
    return [
        {"filter": text(topic), "qos": number(qos), "no-local": number(local) == 1, "retain-as-published": number(published) == 1, "retain-handling": number(handling)}
        for topic, (qos, local, published, handling) in zip(found["topic"], options)
    ]


def packet_of(proto, table):
    """The object of a packet."""
    found, blocks = {}, {}
    for field in proto.iter("field"):
        name = field.get("name").removeprefix("mqtt.")
        found.setdefault(name, []).append(field)
        if name in ("properties", "will_properties"):
            blocks[name] = list(field)
    first = lambda name: found[name][0]
    kind = KINDS[number(first("msgtype"))]
    codes = [number(it) for name in found if name.endswith(".reason_code") for it in found[name]]
    it = {"type": kind, "size": int(proto.get("size")), "properties": properties(blocks.get("properties", []), table)}
    if "msgid" in found:
        it["id"] = number(first("msgid"))
    if kind == "CONNECT":
        it |= {"client": text(first("clientid")) if "clientid" in found else "", "clean": number(first("conflag.cleansess")) == 1, "keep": number(first("kalive"))}
        it["user-name"] = (text(first("username")) if "username" in found else "") if number(first("conflag.uname")) else None
        it["will"] = will_of(found, blocks, table) if number(first("conflag.willflag")) else None
    elif kind == "CONNACK":
        it |= {"present": number(first("conack.flags.sp")) == 1, "code": codes[0]}
    elif kind == "PUBLISH":
        it |= {"qos": number(first("qos")), "dup": number(first("dupflag")) == 1, "retain": number(first("retain")) == 1, "topic": text(first("topic"))}
        it |= {"id": it.get("id"), "payload": len(octets(first("msg"))) if "msg" in found else 0}
    elif kind in ("SUBACK", "UNSUBACK"):
        it["codes"] = codes
    elif kind in ("SUBSCRIBE", "UNSUBSCRIBE"):
        it["filters"] = filters(found, kind)
    elif kind not in ("PINGREQ", "PINGRESP"):
        it["code"] = codes[0] if codes else 0
    return it


def read(packets, room, table):
    """What tshark reads of packets, an object for each."""
    file = f"{room}/capture"
    with open(file, "wb") as it:
        it.write(capture([CONNECT, *packets]))
    ran = subprocess.Popen(["tshark", "-r", file, "-T", "pdml", "-J", "mqtt"], stdout=subprocess.PIPE, stderr=subprocess.DEVNULL)
    found = []
    for _, element in tree.iterparse(ran.stdout):
        if element.tag == "packet":
            found += [packet_of(it, table) for it in element.iter("proto") if it.get("name") == "mqtt"]
            element.clear()
    ran.wait()
    return found[1:]
