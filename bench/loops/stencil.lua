local function main()
  local n = 256
  local nt = io.read("n")
  local u = {}
  for i = 1, n do
    u[i] = {}
    for j = 1, n do u[i][j] = 0 end
  end
  for j = 1, n do u[1][j] = 1000000 end
  for k = 1, nt do
    for j = 2, n - 1 do
      for i = 2, n - 1 do
        u[i][j] = (u[i - 1][j] + u[i + 1][j] + u[i][j - 1] + u[i][j + 1]) // 4
      end
    end
  end
  print(u[2][2], u[128][128], u[64][200])
end
main()
