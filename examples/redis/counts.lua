-- The counts of all registers of a server, for prometheus-redis-exporter -script: names and values in turn. The
-- exporter offers them as redis_script_values{key="hlr:areas:2"}. In a cluster, run an exporter for each node.
local told = {}

local function tell(name, value)
  told[#told + 1] = name
  told[#told + 1] = tostring(value)
end

local function tell_register(register)
  for _, kind in ipairs({'hours', 'areas', 'zones'}) do
    for place, count in ipairs(redis.call('HLR.COUNTS', register, kind)) do
      tell(register .. ':' .. kind .. ':' .. (place - 1), count)
    end
  end
  local info = redis.call('HLR.INFO', register)
  for place = 1, #info, 2 do tell(register .. ':' .. info[place], info[place + 1]) end
end

local cursor = '0'
repeat
  local page = redis.call('SCAN', cursor, 'TYPE', 'hlrregist', 'COUNT', 1000)
  cursor = page[1]
  for _, register in ipairs(page[2]) do tell_register(register) end
until cursor == '0'
return told
