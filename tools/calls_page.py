"""The reference of the calls as one HTML file, from the sections of `calls` and the template beside this file."""

import html
import re

from calls import anchor_at, anchor_of, anchors, name_of, owner_anchor
from edits import TOP, read

# In a doc comment: a link to an item, with or without its path; code; and a link to another site
SPAN = re.compile(r"\[`([^`]*)`\](?:\(([^)]*)\))?|`([^`]*)`|\[([^\]]*)\]\((https?://[^)]*)\)")
KEYWORD = re.compile(r"^(requires|ensures|ghost)\b")


def filled(template, parts):
    """Returns the text of a template of tools/, with the parts in the places that it names, and the style of the pages."""
    text = read(f"{TOP}/tools/{template}")
    for name, part in {"style": read(f"{TOP}/tools/page.css"), **parts}.items():
        text = text.replace(f"<!-- {name} -->\n", part)
    return text


def escaped(text):
    """Returns the text as HTML."""
    return html.escape(text, quote=False)


def slug(title):
    """Returns the anchor of a heading."""
    return re.sub(r"\W+", "-", title.lower())


def span(found, names):
    """Returns the HTML of code or a link in a doc comment. Code that names a call or a type leads to it too."""
    item, path, code, text, url = found.groups()
    if url:
        return f'<a href="{url}">{text}</a>'
    anchor = anchor_at(path or item or code, names)
    shown = f"<code>{item or code}</code>"
    return f'<a href="#{anchor}">{shown}</a>' if anchor else shown


def inline(text, names):
    """Returns the text of a doc comment as HTML, with its code and links."""
    return SPAN.sub(lambda it: span(it, names), escaped(text))


def blocks(doc):
    """Returns the blocks of a doc comment's lines: each is `h`, `li` or `p`, and a text."""
    found, goes_on = [], False
    for line in doc:
        kind = "h" if line.startswith("# ") else "li" if line.startswith("- ") else "p"
        if kind != "p":
            found.append((kind, line[2:]))
        elif line and goes_on:
            found[-1] = (found[-1][0], f"{found[-1][1]} {line}")
        elif line:
            found.append((kind, line))
        goes_on = bool(line) and kind != "h"
    return found


def prose(doc, names):
    """Returns a doc comment's lines as HTML."""
    tags = {"h": "<p><b>{}</b></p>", "li": "<ul><li>{}</li></ul>", "p": "<p>{}</p>"}
    text = "\n".join(tags[kind].format(inline(words, names)) for kind, words in blocks(doc))
    return text.replace("</ul>\n<ul>", "\n")


def code_line(line):
    """Returns a line of source text as HTML. Where a browser breaks the line, what follows is indented deeper."""
    indent, marked = len(line) - len(line.lstrip()), KEYWORD.sub(r"<b>\1</b>", escaped(line))
    # A browser would break a line within an arrow.
    marked = f"<i>{marked}</i>" if line.lstrip().startswith("//") else marked.replace("-&gt;", "<span>-&gt;</span>")
    return f'<span style="--indent: {indent + 2}ch">{marked}\n</span>'


def code(text):
    """Returns source text as HTML."""
    lines = "".join(map(code_line, text.split("\n")))
    return f"<pre><code>{lines}</code></pre>"


def folded(title, item):
    """Returns the contract of a call, or the ghost members of a trait, folded; with the file that has them."""
    if not item.contract:
        return ""
    source = f'<p class="source">{item.file}</p>'
    return f'<details><summary>{title}</summary>\n{code(item.contract)}\n{source}\n</details>\n'


def article(call, level, names):
    """Returns the HTML of a call, with a heading of this level."""
    anchor, owner = anchor_of(call), name_of(call)[: -len(call.name)]
    name = f"<span>{escaped(owner)}</span>{call.name}" if owner else call.name
    # The bounds of an impl are conditions on the call.
    signature = f"{call.owner}\n{call.signature}" if ": " in call.owner.partition("impl")[2] else call.signature
    return (
        f'<article id="{anchor}">\n<{level}><a href="#{anchor}">{name}</a></{level}>\n{code(signature)}\n'
        f'{prose(call.doc, names)}\n{folded("Contract", call)}</article>\n'
    )


def type_anchor(group):
    """Returns the anchor of a group's trait or type."""
    return owner_anchor(group.calls[0].owner)


def group_anchor(section, group):
    """Returns the anchor of a group, which is the section's if it has no title."""
    if group.type:
        return type_anchor(group)
    return slug(f"{section.title} {group.title}" if group.title else section.title)


def about(group, names):
    """Returns the HTML of what is said of a group's trait or type, below its heading."""
    if not group.type:
        return ""
    signature = code(group.type.signature) + "\n" if group.type.signature else ""
    return f'<div class="about">\n{signature}{prose(group.type.doc, names)}\n{folded("Ghost members", group.type)}</div>\n'


def group_html(section, group, names):
    """Returns the HTML of a group."""
    anchor, level, heading = group_anchor(section, group), "h3", ""
    if group.title:
        level, heading = "h4", f'<h3><a href="#{anchor}">{escaped(group.title)}</a></h3>\n'
    articles = "\n".join(article(call, level, names) for call in group.calls)
    own = f' id="{anchor}"' if group.title else ""
    return f'<section class="group"{own}>\n{heading}{about(group, names)}\n{articles}</section>\n'


def section_html(section, names):
    """Returns the HTML of a section."""
    text = f"<p>{section.text}</p>\n" if section.text else ""
    groups = "\n".join(group_html(section, group, names) for group in section.groups)
    return f'<section id="{slug(section.title)}">\n<h2>{section.title}</h2>\n{text}{groups}</section>\n'


def contents(section):
    """Returns the part of the table of contents that leads to a section and its groups."""
    groups = "".join(
        f'<li><a href="#{group_anchor(section, group)}">{escaped(group.title)}</a></li>\n'
        for group in section.groups
        if group.title
    )
    groups = f"\n<ul>\n{groups}</ul>\n" if groups else ""
    return f'<li><a href="#{slug(section.title)}">{section.title}</a>{groups}</li>\n'


def page(sections):
    """Returns the text of the page."""
    groups = [group for section in sections for group in section.groups if group.type]
    # The name of a type leads to the calls that it has for all arguments, if there are some.
    groups.sort(key=lambda it: "-" not in type_anchor(it))
    names = {**{it.type.name: type_anchor(it) for it in groups}, **anchors(sections)}
    parts = {"contents": "".join(map(contents, sections)), "sections": "\n".join(section_html(it, names) for it in sections)}
    return filled("calls_page.html", parts)
