-- state.script by coroutines: what the coroutine yields says which effect it performs.

local repeats = tonumber(arg[1])
local resume, status, yield = coroutine.resume, coroutine.status, coroutine.yield

local function count_up()
  local index = 0
  while index < repeats do
    yield("put", yield("get") + 1)
    index = index + 1
  end
end

local function state(body, value)
  local rest = coroutine.create(body)
  local went, effect, new = resume(rest)
  while status(rest) ~= "dead" do
    if effect == "get" then
      went, effect, new = resume(rest, value)
    else
      value = new
      went, effect, new = resume(rest, 0)
    end
  end
  assert(went, effect)
  return value
end

print("= " .. state(count_up, 0))
