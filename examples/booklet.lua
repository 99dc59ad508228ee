#!/usr/bin/env texlua
-- A booklet of a finished PDF: its pages on sheets that are folded once, as `pg fold` says.
--
--   texlua booklet.lua [NEST] paper      writes paper-booklet.tex and sets it with pdfLaTeX and pdfpages
--
-- NEST sheets are put into each other, 4 without the word. Print paper-booklet.pdf on both sides, turned at the short
-- edge, and fold. The program is `pg` in the path, or what the variable PG names.

local nest, name = arg[2] and arg[1] or "4", arg[2] or arg[1]
if not name or not nest:match("^%d+$") then io.stderr:write("usage: booklet.lua [NEST] NAME\n") os.exit(2) end
local pdf = pdfe.open(name .. ".pdf")
if not pdf then io.stderr:write("booklet: there is no " .. name .. ".pdf\n") os.exit(1) end
local pages = pdfe.getnofpages(pdf)

-- pg folds the pages of a galley: here one line makes a page
local galley, style = name .. "-booklet.log", name .. "-booklet.toml"
local f = assert(io.open(galley, "w"))
f:write("\\vbox(0.0+0.0)x100.0\n")
for page = 1, pages do
  if page > 1 then f:write(".\\penalty -10000\n") end
  f:write(".\\hbox(7.0+0.0)x100.0\n")
end
f:close()
f = assert(io.open(style, "w"))
f:write([[
version = 1
columns = 1
first = "single"
height = "10.0"
topskip = "10.0"
maxdepth = "4.0"
min_text = "0.0"
tolerance = 10000
line = 10
max_looseness = 0
runs = [ { extra = "0.0", demerits = 0 } ]
top = { count = 0, sep = "0.0", gap = "0.0" }
bottom = { count = 0, sep = "0.0", gap = "0.0" }
wide = { count = 0, sep = "0.0", gap = "0.0" }
float_column = { count = 0, demerits = 1000 }
]])
f:close()
local sides, blank = {}, nil
local pg = io.popen(string.format("'%s' fold --folds 1 --nest %s '%s' '%s'", os.getenv("PG") or "pg", nest, style, galley))
for line in pg:lines() do
  blank = blank or line:match("^signatures %d+ sheets %d+ pages %d+ blank (%d+)")
  -- pg tells the back as it stands behind the front; seen from its own side left and right change
  local side, left, right = line:match("^sheet %d+ (%a+) (%S+) (%S+)$")
  if side == "back" then left, right = right, left end
  if side then sides[#sides + 1] = left .. "," .. right end
end
pg:close()
os.remove(galley)
os.remove(style)
if not blank then io.stderr:write("booklet: pg folded nothing: is it in the path, or named by PG?\n") os.exit(1) end

f = assert(io.open(name .. "-booklet.tex", "w"))
f:write("\\documentclass[a4paper,landscape]{article}\n\\usepackage{pdfpages}\n\\begin{document}\n")
for _, side in ipairs(sides) do
  f:write("\\includepdf[pages={", (side:gsub("%-", "{}")), "},nup=2x1]{", name, ".pdf}\n")
end
f:write("\\end{document}\n")
f:close()
print(string.format("%d pages on %d sides, %s of them blank", pages, #sides, blank))
os.exit(os.execute("pdflatex -interaction=batchmode '" .. name .. "-booklet' > /dev/null") == 0 and 0 or 1)
