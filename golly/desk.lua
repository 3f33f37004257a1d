-- Evolves the open pattern by the desk, with interventions, and opens what comes of it as a new layer.
--
-- It runs in Golly 3 and later by File > Run Script, also where Golly has no Python. It starts `python3`, or the one
-- that the environment's DESK_PYTHON names, with the package `desk`: that of the clone which this script lies in, or
-- else the installed one. The program is found as by every client, so DESK may name it.

local g = golly()

local GOAL = "To which generation? Now it is %s.\n" ..
    "Type it as 1000 or 2^40, or +500 for so many more."
local CHANGES = "Interventions, with ; between, or nothing:\n" ..
    "24: 9 2 0 (the cell (9, 2) gets state 0 at generation 24)\n" ..
    "24: clear (the selected cells get state 0)\n" ..
    "24: restore (the selected cells get the states that they have now)"
local NO_PACKAGE = "desk: `python3`, or what DESK_PYTHON names, can't run the package `desk`. " ..
    "Run this script from its clone, or install the package.\n\n"
local IN_RLE = { QuickLife = true, ["Larger than Life"] = true }  -- algorithms without macrocell texts
local REFUSED = 2  -- the status of the module where it says why there is no answer

local function written(path, text)
    local file = assert(io.open(path, "w"))
    file:write(text)
    file:close()
end

local function text_of(path)
    local file = io.open(path, "r")
    if not file then return nil end
    local text = file:read("a")
    file:close()
    return text
end

local function quoted(word)
    return "'" .. word:gsub("'", "'\\''") .. "'"
end

-- The open pattern, saved as a copy in another layer, since saving forgets what can be undone.
local function saved(path)
    local keeps = g.setoption("savexrle", 1)
    g.duplicate()
    g.save(path, IN_RLE[g.getalgo()] and "rle" or "mc")
    g.dellayer()
    g.setoption("savexrle", keeps)
end

-- The lines that the module desk.golly reads.
local function question(pattern, goal, changes)
    local lines = {
        "pattern " .. pattern, "rule " .. g.getrule(), "algorithm " .. g.getalgo(), "generation " .. g.getgen(),
        "folder " .. g.getdir("rules"), "folder " .. g.getdir("app") .. "Rules", "to " .. goal, "changes " .. changes,
    }
    local selected = g.getselrect()
    if #selected > 0 then lines[#lines + 1] = "selection " .. table.concat(selected, " ") end
    return table.concat(lines, "\n"):gsub("[\r]", "") .. "\n"
end

-- Starts the module, which answers in the folder; the file `ended` has its exit status in the end. It doesn't begin in
-- the folder of this script, where another file is called `desk` as well.
local function start(folder)
    local script = debug.getinfo(1, "S").source:match("^@(.*)[/\\]") or "."
    os.execute(string.format(
        "(cd %s; PYTHONPATH=%s:$PYTHONPATH ${DESK_PYTHON:-python3} -m desk.golly . > said 2>&1; echo $? > ended) &",
        quoted(folder), quoted(script .. "/../clients/python/src")))
end

-- Waits for the module's exit status.
local function wait(folder)
    local status
    repeat
        g.show("desk: " .. (text_of(folder .. "progress") or "the desk begins"))
        g.sleep(50)
        status = text_of(folder .. "ended") or ""
    until #status > 0
    return tonumber(status)
end

local function opened(path, name, said)
    local rule, algorithm, selected = g.getrule(), g.getalgo(), g.getselrect()
    local kind, generation = said:match("(%a+) (%d+)")
    g.addlayer()
    g.open(path)
    -- QuickLife can't hold what is large. The rule comes second, since a macrocell text may be opened by another one.
    g.setalgo(kind == "macrocell" and algorithm == "QuickLife" and "HashLife" or algorithm)
    g.setrule(rule)
    g.setgen(generation)
    g.setname(name .. " at " .. generation)
    if #selected > 0 then g.select(selected) end
    g.fit()
    g.show("desk: generation " .. generation .. " is in the new layer")
end

local function main()
    if g.empty() then g.exit("desk: there is no pattern.") end
    if g.numlayers() == g.maxlayers() then g.exit("desk: there is no room for a layer; delete one.") end
    local now = g.getgen()
    local goal = g.getstring(GOAL:format(now), "+1000", "desk")
    local changes = g.getstring(CHANGES, "", "desk")
    local folder = g.getdir("temp") .. "desk-" .. os.time() .. "-" .. math.random(1000000) .. "/"
    os.execute("mkdir -p " .. quoted(folder))
    saved(folder .. "pattern")
    written(folder .. "question", question(folder .. "pattern", goal, changes))
    start(folder)
    local went, status = pcall(wait, folder)
    if not went then  -- Escape was pressed
        written(folder .. "stop", "")
        error(status, 0)
    end
    local said = string.gsub(text_of(folder .. "said") or "", "%s+$", "")
    if status == 0 then
        opened(folder .. "answer", g.getname(), said)
    else
        g.show("desk: there is no answer")
        g.note((status == REFUSED and "desk: " or NO_PACKAGE) .. said, false)
    end
end

main()
