-- Seats of a fleet, numbered through: `filter lua.renumber 32 96` makes seat 40 of 96 the seat 8 of a host that has 32.
-- The first line of a connection is rewritten. All that comes after it passes as it is. A first line that is no seat, or a
-- number beyond the last one, passes too, and the host answers it.

local Renumber = {}
Renumber.__index = Renumber
Renumber.id = "renumber seats of a fleet"
Renumber.flags = 0

function Renumber:new()
  return setmetatable({}, { __index = self })
end

function Renumber:start_analyze(txn, channel)
  if not channel:is_resp() then
    filter.register_data_filter(self, channel)
  end
end

-- The number that a first line asks for, or nil.
local function seat_of(line)
  return tonumber(line:match('^%s*{%s*"seat"%s*:%s*([1-9]%d?%d?%d?)%s*}%s*\n$'))
end

function Renumber:tcp_payload(txn, channel)
  local line = channel:line()
  if line == nil or line:sub(-1) ~= "\n" then
    return filter.WAIT
  end
  filter.unregister_data_filter(self, channel)
  local number = seat_of(line)
  if number and number <= self.last then
    channel:set(string.format('{"seat":%d}\n', (number - 1) % self.seats + 1), 0, #line)
  end
end

core.register_filter("renumber", Renumber, function(class, words)
  class.seats = tonumber(words[1])
  class.last = tonumber(words[2])
  assert(class.seats and class.last, "renumber takes the seats of a host, and those of the fleet")
  return class
end)
