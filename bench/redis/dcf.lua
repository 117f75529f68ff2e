-- DELETE_CALL_FORWARDING over hashes. KEYS: the number. ARGV: sf_type, start_time.
local subscriber = redis.call('GET', KEYS[1])
if not subscriber then return redis.error_reply('NONUMBER') end
local row, field = 's:' .. subscriber, 'c' .. ARGV[1] .. ARGV[2]
local found = redis.call('HMGET', row, 'f' .. ARGV[1], field)
if not found[2] then return redis.error_reply('NOFORWARDING') end
redis.call('HDEL', row, field)
redis.call('HINCRBY', 'counts', 'z' .. math.min(31, math.floor((tonumber(subscriber) - 1) / WIDTH)), -1)
if string.sub(found[1], 1, 1) == '1' then
  local stop = tonumber(string.match(found[2], '^(%d+),'))
  for hour = tonumber(ARGV[2]), stop - 1 do redis.call('HINCRBY', 'counts', 'h' .. hour, -1) end
end
return redis.status_reply('OK')
