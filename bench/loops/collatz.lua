local function main()
  local n = io.read("n")
  local s = 0
  for i = 1, n do
    local k = i
    while k ~= 1 do
      if k % 2 == 0 then k = k // 2 else k = 3 * k + 1 end
      s = s + 1
    end
  end
  print(s)
end
main()
