local function main()
  local n = io.read("n")
  local a = {}
  for i = 1, n do a[i] = (n - i) * 7919 % 10007 end
  for i = n - 1, 1, -1 do
    for j = 1, i do
      if a[j] > a[j + 1] then
        local k = a[j]
        a[j] = a[j + 1]
        a[j + 1] = k
      end
    end
  end
  print(a[1], a[n // 2], a[n])
end
main()
