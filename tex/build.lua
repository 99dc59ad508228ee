-- l3build: `l3build ctan` packs the files as CTAN wants them, `l3build install` puts them where TeX finds them
module = "pg"
packageversion = "1.0"
packagedate = "2026-11-30"

tdsroot = "generic"
installfiles = { "pg.sty", "pg-plain.tex", "pg-core.tex", "pg.lua" }
scriptfiles = { "pgtex.lua" }
sourcefiles = { "pg.sty", "pg-plain.tex", "pg-core.tex", "pg.lua", "pgtex.lua" }
scriptmanfiles = { "pgtex.1" }
textfiles = { "README.md" }
docfiles = { "latexmkrc", "Makefile" }
unpackfiles = {}
typesetfiles = {}

uploadconfig = {
  pkg = "pg",
  author = "The pg authors",
  license = "mit",
  summary = "Pages of least cost over a whole LaTeX document",
  ctanPath = "/macros/latex/contrib/pg",
}
