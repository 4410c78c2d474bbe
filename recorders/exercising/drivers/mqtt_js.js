// A driver of MQTT.js: a client that does what it is told on do/#.  node mqtt_js.js PORT CLIENT_IDENTIFIER [METHOD]
const mqtt = require('mqtt')
const authenticationMethod = process.argv[4] || undefined

const client = mqtt.connect({
  host: '127.0.0.1',
  port: Number(process.argv[2]),
  clientId: process.argv[3],
  protocolVersion: 5,
  clean: false,
  keepalive: 5,
  reconnectPeriod: 1000,
  resubscribe: false,
  properties: { sessionExpiryInterval: 300, topicAliasMaximum: 5, receiveMaximum: 60, ...(authenticationMethod && { authenticationMethod }) }
})

client.handleAuth = (packet, answer) => answer(null, { cmd: 'auth', reasonCode: 0x18, properties: { authenticationMethod } })

client.on('connect', (connack) => {
  if (!connack.sessionPresent) client.subscribe('do/#', { qos: 2 })
})

client.on('message', (topic, message) => {
  const words = message.toString().split(' ')
  if (topic !== 'do/it') return
  if (words[0] === 'pub' || words[0] === 'keep') {
    const [qos, count, size] = words.slice(1).map(Number)
    for (let i = 0; i < count; i++) client.publish('echo/t', 'x'.repeat(size), { qos, retain: words[0] === 'keep' }, () => {})
  } else if (words[0] === 'sub') client.subscribe(words[1], { qos: Number(words[2]) })
  else if (words[0] === 'number') {
    client.subscribe(words[1], { qos: Number(words[2]), properties: { subscriptionIdentifier: 1 } })
  } else if (words[0] === 'unsub') client.unsubscribe(words[1])
  else if (words[0] === 'bye') words[1] ? client.end(false, { reasonCode: parseInt(words[1], 16) }) : client.end()
})

client.on('error', () => {})
