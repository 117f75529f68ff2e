-- INSERT_CALL_FORWARDING over hashes. KEYS: the number. ARGV: sf_type, start_time, end_time, numberx.
local subscriber = redis.call('GET', KEYS[1])
if not subscriber then return redis.error_reply('NONUMBER') end
local row = 's:' .. subscriber
local facility = redis.call('HGET', row, 'f' .. ARGV[1])
if not facility then return redis.error_reply('NOFACILITY') end
local is_new = redis.call('HSETNX', row, 'c' .. ARGV[1] .. ARGV[2], ARGV[3] .. ',' .. ARGV[4])
if is_new == 0 then return redis.error_reply('EXISTS') end
redis.call('HINCRBY', 'counts', 'z' .. math.min(31, math.floor((tonumber(subscriber) - 1) / WIDTH)), 1)
if string.sub(facility, 1, 1) == '1' then
  for hour = tonumber(ARGV[2]), tonumber(ARGV[3]) - 1 do redis.call('HINCRBY', 'counts', 'h' .. hour, 1) end
end
return redis.status_reply('OK')
