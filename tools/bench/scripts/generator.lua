-- generator.script by a coroutine.

local repeats = tonumber(arg[1])
local yield = coroutine.yield

local function numbers()
  local number = 0
  while number < repeats do
    yield(number)
    number = number + 1
  end
end

local function adds(body, sum)
  local rest = coroutine.wrap(body)
  local number = rest()
  while number do
    sum = sum + number
    number = rest(0)
  end
  return sum
end

print("= " .. adds(numbers, 0))
