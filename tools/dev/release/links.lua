function Link(link)
  local page, anchor = link.target:match("^([%w-]+)%.md(#?.*)$")
  if page and PAGES[page] then
    link.target = page:lower() .. ".html" .. anchor
  elseif not link.target:match("^%a+:") and not link.target:match("^#") then
    return link.content
  end
  return link
end
