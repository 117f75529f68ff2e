-- UPDATE_SUBSCRIBER_DATA over hashes. KEYS: the subscriber. ARGV: sf_type, bit_1, data_a.
local field = 'f' .. ARGV[1]
local found = redis.call('HMGET', KEYS[1], 'd', field)
if not found[1] then return redis.error_reply('NOSUBSCRIBER') end
if not found[2] then return redis.error_reply('NOFACILITY') end
local active, control, letters = string.match(found[2], '^(%d),(%d+),%d+,(%a+)$')
local facility = active .. ',' .. control .. ',' .. ARGV[3] .. ',' .. letters
redis.call('HSET', KEYS[1], 'd', ARGV[2] .. string.sub(found[1], 2), field, facility)
return redis.status_reply('OK')
