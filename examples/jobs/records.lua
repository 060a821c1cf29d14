-- Keeps records, replaces some of them, and counts what is left.
local seed, words = 7, {"amber", "basalt", "cedar", "delta", "ember", "fjord", "granite", "harbour"}
local function draw(n) seed = (seed * 1103515245 + 12345) % 2147483648; return seed // 65536 % n + 1 end
local function record(n)
  local tags = {}
  for k = 1, draw(6) do tags[k] = words[draw(8)] .. draw(1000) end
  return {id = n, name = words[draw(8)] .. " " .. n, tags = tags, text = string.rep("x", draw(200))}
end
local kept, bytes = {}, 0
for n = 1, 150000 do kept[n] = record(n) end
for n = 1, 100000 do kept[draw(32768)] = record(n) end
for _, each in ipairs(kept) do bytes = bytes + #each.text + #each.tags end
print(bytes)
