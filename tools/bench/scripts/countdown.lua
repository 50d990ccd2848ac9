-- countdown.script by tail calls.

local function count_down(index, total)
  if index == 0 then
    return total
  end
  return count_down(index - 1, total + index)
end

print("= " .. count_down(tonumber(arg[1]), 0))
