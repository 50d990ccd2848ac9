-- The generated script of so many tasks by a coroutine.

local tasks = tonumber(arg[1])
local yield = coroutine.yield

local function task(id, times)
  local index = 0
  while index < times do
    yield(id)
    index = index + 1
  end
end

local function all()
  for id = 1, tasks do
    task(id, 37 * id % 97 + 1)
  end
end

local function count(body, ticks, total)
  local rest = coroutine.wrap(body)
  local weight = rest()
  while weight do
    ticks = ticks + 1
    total = total + weight
    weight = rest(0)
  end
  print(ticks)
  return total
end

print(tasks)
print("= " .. count(all, 0, 0))
