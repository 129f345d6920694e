// Ten messages at QoS 2 between two clients of MQTT.js.
// usage: node mqtt_js_qos2.js PORT: prints 'N of 10', those that came whole, once and in order.
const mqtt = require("mqtt");

const url = `mqtt://127.0.0.1:${process.argv[2]}`;
const options = { protocolVersion: 5, reconnectPeriod: 0 };
const came = [];
const receiver = mqtt.connect(url, options);

function finish() {
    const right = came.filter((word, at) => word === `js ${at}`).length;
    console.log(`${came.length === right ? right : "not all"} of 10`);
    process.exit(0);
}

receiver.on("message", (topic, payload) => came.push(payload.toString()));
receiver.on("connect", () => {
    receiver.subscribe("js/words", { qos: 2 }, () => {
        const sender = mqtt.connect(url, options);
        let done = 0;
        sender.on("connect", () => {
            for (let number = 0; number < 10; number++) {
                sender.publish("js/words", `js ${number}`, { qos: 2 }, () => {
                    done += 1;
                    if (done === 10) setTimeout(finish, 1000);
                });
            }
        });
    });
});
setTimeout(finish, 20000);
