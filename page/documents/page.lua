-- A page of the documents, for pandoc: its links lead to pages of the site, each call that it names leads to the page
-- of that call, and its headings go into the list that is searched. Environment:
--   PAGE      the file of the page, by the folder of the project
--   TOP       that folder
--   CALLS     the names of all calls, divided by spaces
--   HEADINGS  a file that gets a line for each heading: its words, the title of the page, and where it is
--   LINKED    a file that gets the name of each file of the project that a link leads to

local page, top = os.getenv 'PAGE', os.getenv 'TOP'
local is_manual = page:match '%.[13]$' ~= nil
local calls, title = {}, page:match '[^/]*$'
for call in os.getenv('CALLS'):gmatch '%S+' do calls[call] = true end

-- A path without . and .. in it.
local function plain(path)
    local parts = {}
    for part in path:gmatch '[^/]+' do
        if part == '..' then table.remove(parts) elseif part ~= '.' then parts[#parts + 1] = part end
    end
    return table.concat(parts, '/')
end

-- What leads from this page to the top of the site.
local root = ('../'):rep(select(2, page:gsub('/', '')))

-- Where the site has a file of the project.
local function place(file)
    if file:match '%.md$' then return (file:gsub('%.md$', '.html')) end
    if file:match '%.svg$' or file:match '%.png$' then return file end
    local opened = io.open(top .. '/' .. file)
    if opened and not opened:read(0) then return file .. '/index.html' end
    return file .. '.html'
end

local function write(name, line)
    local file = assert(io.open(os.getenv(name), 'a'))
    file:write(line, '\n')
    file:close()
end

local function target_of(link)
    if link:match '^%a+:' or link:match '^#' then return link end
    local path, anchor = link:match '^([^#]*)(.*)$'
    local file = plain((page:match '^.*/' or '') .. path)
    write('LINKED', file)
    return root .. place(file) .. anchor
end

local function to_call(name, words)
    return pandoc.Link(words, root .. 'man/' .. name .. '.3.html')
end

-- A word that names a call, with what stands around it.
local function linked(text)
    local before, name, after = text:match '^(.-)(mscp_[a-z_]+)(.*)$'
    if not calls[name] or page == 'man/' .. name .. '.3' then return nil end
    return { pandoc.Str(before), to_call(name, { pandoc.Str(name) }), pandoc.Str(after) }
end

local function heading(words, id)
    write('HEADINGS', ('%s\t%s\t%s%s'):format(words, title, place(page), id == '' and '' or '#' .. id))
end

local first = {
    Header = function(it)
        if not is_manual and it.level == 1 then title = pandoc.utils.stringify(it) end
    end,
}

-- What links lead to, before any more are made.
local second = {
    Link = function(it)
        it.target = target_of(it.target)
        return it
    end,
    Image = function(it)
        it.src = target_of(it.src)
        return it
    end,
}

-- What links and headings say stays as it is.
local function kept(it)
    return pandoc.walk_inline(it, {
        Code = function(code)
            code.classes = { 'kept' }
            return code
        end,
        Str = function(it)
            return is_manual and it.text:match '^mscp_[a-z_]+$' and pandoc.RawInline('html', it.text) or nil
        end,
    })
end

local third = {
    Link = kept,
    Header = function(it)
        local words = pandoc.utils.stringify(it)
        if is_manual then it.identifier = words:lower():gsub('[^%w]+', '-') end
        if page:sub(1, 4) ~= 'man/' then heading(words, it.identifier) end
        it.content = kept(pandoc.Span(it.content)).content
        return it
    end,
}

local fourth = {
    Code = function(it)
        local name = it.text:gsub('%(%)$', '')
        return calls[name] and it.classes[1] ~= 'kept' and to_call(name, { it }) or nil
    end,
    Str = function(it) return is_manual and linked(it.text) or nil end,
    -- Of the blanks that a line of a synopsis begins with one is left.
    CodeBlock = function(it)
        it.text = is_manual and it.text:gsub('\n ', '\n        ') or it.text
        return it
    end,
}

-- The terms of a list of the library's page are its calls, each with an anchor.
local anchors = {
    DefinitionList = function(it)
        if page ~= 'docs/mscp.3' then return nil end
        for _, item in ipairs(it.content) do
            local words = {}
            for name in pandoc.utils.stringify(item[1]):gmatch '[^, ]+' do
                words[#words + 1] = pandoc.Span({ pandoc.Str(name) }, { id = name })
                words[#words + 1] = pandoc.Space()
            end
            item[1] = words
        end
        return it
    end,
}

-- The pages that a manual names, as in mscp(3).
local manuals = {
    Inlines = function(list)
        if not is_manual then return nil end
        for n = 1, #list - 1 do
            local name = list[n].t == 'Strong' and pandoc.utils.stringify(list[n])
            local section = list[n + 1].t == 'Str' and list[n + 1].text:match '^%(([13])%)'
            if name and section then
                local file = calls[name] and 'man/' .. name or 'docs/' .. name
                list[n] = pandoc.Link({ list[n] }, root .. file .. '.' .. section .. '.html')
            end
        end
        return list
    end,
}

local function whole(document)
    if page:sub(1, 4) ~= 'man/' then return nil end
    local blocks = document.blocks
    heading(pandoc.utils.stringify(blocks[2]), '')
    return nil
end

return { first, second, anchors, manuals, third, fourth, { Pandoc = whole } }
