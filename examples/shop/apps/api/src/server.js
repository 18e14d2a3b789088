const log = require('@shop/log')
log('listening')
