local function main()
  local n = io.read("n")
  local a = {}
  for i = 1, 10000 do a[i] = i * 7919 % 1000 end
  local s = 0
  for k = 1, n do
    for i = 1, 10000 do s = s + a[i] end
  end
  print(s)
end
main()
