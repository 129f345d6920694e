// A client of MQTT.js that takes topic aliases reads messages of twelve topics, three of each, at QoS 1.
// usage: node mqtt_js_aliases.js PORT: prints 'N of 36, M by an alias alone': those that came once, with their topic and in order, and
// those among them whose packets have no topic.
const mqtt = require("mqtt");

const url = `mqtt://127.0.0.1:${process.argv[2]}`;
const options = { protocolVersion: 5, reconnectPeriod: 0 };
const came = [];
const sent = [];
for (let number = 0; number < 36; number++) sent.push(`js/alias/${number % 12} ${number}`);

function finish() {
    const right = came.filter((it, at) => it.text === sent[at]);
    const short = right.filter((it) => it.packet.topic === "").length;
    console.log(`${came.length === right.length ? right.length : "not all"} of 36, ${short} by an alias alone`);
    process.exit(0);
}

const receiver = mqtt.connect(url, { ...options, topicAliasMaximum: 10 });
receiver.on("message", (topic, payload, packet) => {
    came.push({ text: `${topic} ${payload}`, packet });
    if (came.length === sent.length) setTimeout(finish, 500);
});
receiver.on("connect", () => {
    receiver.subscribe("js/alias/+", { qos: 1 }, () => {
        const sender = mqtt.connect(url, options);
        sender.on("connect", () => {
            for (const text of sent) sender.publish(text.split(" ")[0], text.split(" ")[1], { qos: 1 });
        });
    });
});
setTimeout(finish, 20000);
