const ms = require('ms')
module.exports = (text) => console.log(ms(process.uptime() * 1000), text)
