// Reads packets of MQTT 5.0 from standard input, each a line in hexadecimal, by node's mqtt-packet (Debian package node-mqtt-packet), and
// writes what it found, one JSON object a line, binary data in hexadecimal.
const { parser } = require('mqtt-packet');
const { createInterface } = require('readline');
const plain = (key, value) => (value && value.type === 'Buffer' ? Buffer.from(value.data).toString('hex') : value);
createInterface({ input: process.stdin }).on('line', (line) => {
  let found = { error: 'no packet' };
  const decoder = parser({ protocolVersion: 5 });
  decoder.on('packet', (packet) => (found = packet));
  decoder.on('error', (error) => (found = { error: error.message }));
  decoder.parse(Buffer.from(line, 'hex'));
  console.log(JSON.stringify(found, plain));
});
