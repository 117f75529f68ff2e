-- UPDATE_LOCATION over hashes. KEYS: the number. ARGV: vlr_location.
local subscriber = redis.call('GET', KEYS[1])
if not subscriber then return redis.error_reply('NONUMBER') end
local row = 's:' .. subscriber
local from = math.floor(tonumber(redis.call('HGET', row, 'v')) / 268435456)
local to = math.floor(tonumber(ARGV[1]) / 268435456)
redis.call('HSET', row, 'v', ARGV[1])
if from ~= to then
  redis.call('HINCRBY', 'counts', 'a' .. from, -1)
  redis.call('HINCRBY', 'counts', 'a' .. to, 1)
end
return redis.status_reply('OK')
