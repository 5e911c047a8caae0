'use strict'
// The definitions of a crate come as a script that calls `define`: pages that are opened as files may not read other files.
const words = {}, scripts = {}, by = (id) => document.getElementById(id)
let names = []
const define = (crate, found) => { words[crate] = found }
const define_names = (found) => { names = found }
const load = (file) => scripts[file] ??= new Promise((done) => {
  const script = document.createElement('script')
  script.src = file
  script.onload = script.onerror = done
  document.head.append(script)
})
const make = (tag, set) => Object.assign(document.createElement(tag), set)
const key_of = (link) => decodeURIComponent(link.getAttribute('href').split('#')[1])

// Pages and definitions name a definition by an attribute: w, one of the project, or k, one of the toolchain.
function link_words(within) {
  for (const a of within.querySelectorAll('a[w],a[k]')) {
    a.href = 'words.html#' + (a.getAttribute('w') ?? a.getAttribute('k'))
    a.className = a.hasAttribute('k') ? 'd k' : 'd'
  }
}

async function box_of(key, link) {
  const crate = key.split('/')[0], ident = key.slice(crate.length + 1)
  await load(`d/${crate}.js`)
  const [doc, text, place] = words[crate]?.[ident] ?? ['', 'This definition is missing.', '']
  const box = make('div', { className: 'def' })
  box.innerHTML = `<button class=close aria-label=Close>×</button><a href="words.html#${key}"><b></b></a><p class=note></p><div></div><p class=where></p>`
  box.querySelector('b').textContent = ident.split('.').pop()
  box.querySelector('.note').innerHTML = doc
  box.querySelector('div').innerHTML = text
  box.querySelector('.where').textContent = place
  link_words(box)
  box.link = link
  return box
}

function shut(box) {
  box.link?.setAttribute('aria-expanded', 'false')
  box.link?.focus()
  box.remove()
}

async function toggle(link) {
  if (link.box?.isConnected) return shut(link.box)
  link.setAttribute('aria-expanded', 'true')
  link.box = await box_of(key_of(link), link)
  const block = link.closest('pre, .given, .meta')
  ;(block ?? link).after(link.box)
}

// Unfolds all definitions below a contract, each once: the project's, and the toolchain's that these cite.
async function toggle_all(button) {
  const out = button.parentElement.nextElementSibling, opened = button.getAttribute('aria-expanded') == 'true'
  button.setAttribute('aria-expanded', String(!opened))
  const kit = make('details', { innerHTML: '<summary>Words of the toolchain</summary>' }), ours = make('div'), seen = new Set()
  const todo = opened ? [] : [...button.closest('.item').querySelectorAll(':scope > .clause a.d')]
  for (const link of todo) {
    if (seen.has(link.href)) continue
    seen.add(link.href)
    const box = await box_of(key_of(link), null), is_kit = link.classList.contains('k')
    ;(is_kit ? kit : ours).append(box)
    if (!is_kit) todo.push(...box.querySelectorAll(':scope > div > pre a.d'))
  }
  const count = `Fold all ${ours.children.length} definitions of the project and ${kit.children.length - 1} words of the toolchain`
  button.textContent = opened ? 'Unfold all' : count
  out.replaceChildren(...(opened ? [] : [ours, kit]))
}

function find() {
  const asked = by('query').value.toLowerCase().split(/[\s:.]+/).filter(Boolean), last = asked.at(-1), whole = asked.join('_')
  const short_of = ([name]) => name.toLowerCase().split('::').pop()
  const is_named = (short) => short.includes('_') && (asked.includes(short) || short.split('_').every((word) => asked.includes(word)))
  const rank = (it) => {
    const short = short_of(it), kind = it[1]
    const near = [short == whole, short == last, is_named(short), short.startsWith(whole), kind == 'claim', short.startsWith(last), short.includes(last), true]
    const is_inner = ['definition', 'ghost'].includes(kind), is_test = /_tests\b|^contracts_/.test(it[2])
    return near.indexOf(true) + (is_inner ? 0.5 : 0) + (is_test ? 0.6 : 0)
  }
  const scored = names.map((it) => {
    const said = `${it[2]} ${it[0]} ${it[4]}`.toLowerCase()
    return { it, is_sought: is_named(short_of(it)), words: asked.filter((word) => said.includes(word)).length }
  })
  // What has all words, or else most of them, or all but one, or a name that is of these words.
  const least = Math.max(...scored.map((hit) => hit.words)) - 1
  const hits = scored.filter((hit) => hit.is_sought || hit.words >= Math.max(least, 1))
  const order = (hit) => rank(hit.it) - 10 * hit.words - (hit.is_sought ? 100 : 0)
  hits.sort((a, b) => order(a) - order(b))
  by('hits').replaceChildren(...hits.slice(0, 30).map(({ it: [name, kind, module, href, said] }) => {
    const row = make('li', { innerHTML: '<a><b></b> <span class=kind></span><br><span></span></a>' })
    row.firstChild.href = href
    row.querySelector('b').textContent = name
    row.querySelector('.kind').textContent = `${kind} · ${module}`
    row.querySelector('span:last-child').textContent = said
    return row
  }))
  if (asked.length && !hits.length) by('hits').append(make('li', { textContent: 'No name, claim or sentence has such a word.' }))
}

async function show_word() {
  const key = decodeURIComponent(location.hash.slice(1)), crate = key.split('/')[0]
  if (!by('word') || !key) return
  if (key != crate) return by('word').replaceChildren(await box_of(key, null))
  await load(`d/${crate}.js`)
  const list = Object.entries(words[crate] ?? {}).map(([it, [doc]]) => `<li><a href="#${crate}/${it}"><code>${it}</code></a> ${doc}`)
  by('word').innerHTML = `<h2>${crate}</h2><ul>${list.join('')}</ul>`
}

document.addEventListener('click', (event) => {
  const link = event.target.closest('a.d')
  if (link && !event.ctrlKey && !event.metaKey && !event.shiftKey) { event.preventDefault(); toggle(link) }
  if (event.target.matches('.close')) shut(event.target.parentElement)
  if (event.target.matches('.all')) toggle_all(event.target)
  if (!event.target.closest('#search') || event.target.closest('#hits a')) by('hits').replaceChildren()
})
document.addEventListener('keydown', (event) => {
  const box = event.target.closest('.def'), in_search = event.target.closest('#search'), step = { ArrowDown: 1, ArrowUp: -1 }[event.key]
  if (event.key == 'Escape' && in_search) event.target == by('query') ? by('hits').replaceChildren() : by('query').focus()
  else if (event.key == 'Escape' && (box || event.target.box?.isConnected)) shut(box ?? event.target.box)
  if (event.key == '/' && !event.target.matches('input')) { event.preventDefault(); by('query').focus() }
  if (event.key == 'Enter' && event.target == by('query')) by('hits').querySelector('a')?.click()
  if (!in_search || !step) return
  const rows = [by('query'), ...by('hits').querySelectorAll('a')]
  event.preventDefault()
  rows[rows.indexOf(event.target) + step]?.focus()
})
document.addEventListener('focusin', (event) => event.target.closest('#search') || by('hits').replaceChildren())
by('query').addEventListener('focus', () => load('search.js').then(find))
by('query').addEventListener('input', find)
link_words(document)
addEventListener('hashchange', show_word)
show_word()
