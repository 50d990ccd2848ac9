-- coroutines.script by a coroutine, which is resumed and yields: two switches each time.

local repeats = tonumber(arg[1])
local yield = coroutine.yield

local function answers(number)
  while true do
    number = yield(number + 1)
  end
end

local function asks(left)
  local other = coroutine.wrap(answers)
  local sum = 0
  while left > 0 do
    sum = sum + other(left)
    left = left - 1
  end
  return sum
end

print("= " .. asks(repeats))
