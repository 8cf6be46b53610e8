"""HTML: the frame of a page, its style, its script, and tables that can be sorted."""
import binascii
from typing import Sequence

from camac.pictures.spectra import Group
from camac.pictures.svg import DARK, LIGHT, MONO, SANS, Canvas, escape, page_style, variables
from camac.texts import hashed

THEMES = (
    f":root{{{variables(LIGHT)}color-scheme:light dark}}"
    f"@media (prefers-color-scheme:dark){{:root:not([data-theme=light]){{{variables(DARK)}}}}}"
    f":root[data-theme=light]{{color-scheme:light}}:root[data-theme=dark]{{{variables(DARK)}color-scheme:dark}}"
    f"@media print{{:root:root:root{{{variables(LIGHT)}color-scheme:light}}}}"
)
KEYS = "By keys: arrows read the picture that Tab is at, with Shift they mark a part; Enter is a click, or shows the part."
STYLE = f"""
*{{box-sizing:border-box}}
body{{margin:0;background:var(--ground);color:var(--ink);font:15px/1.45 {SANS}}}
main,header{{max-width:1000px;margin:0 auto;padding:0 20px}}
h1{{font-size:24px;margin:22px 0 4px;overflow-wrap:anywhere}}
h2{{font-size:19px;margin:34px 0 8px;padding-top:8px;border-top:1px solid var(--grid)}}
h3{{font-size:15px;margin:20px 0 6px}}
h4{{font-size:13px;margin:12px 0 4px;font-weight:normal;color:var(--mute)}}
summary{{cursor:pointer}}
p{{margin:6px 0;max-width:76ch;overflow-wrap:anywhere}}
nav{{margin:8px 0}}
a{{color:var(--ours)}}
.figure{{overflow-x:auto;margin:8px 0 14px}}
.figure svg{{display:block;max-width:100%;height:auto}}
.figure.full svg{{max-width:none}}
@media screen and (max-width:720px){{.figure svg{{max-width:none;width:720px}}}}
.panels svg{{display:inline-block;margin:0 12px 10px 0;vertical-align:top;max-width:100%;touch-action:pan-y pinch-zoom}}
svg .log,.logarithmic svg .lin{{display:none}}
.logarithmic svg .log{{display:inline}}
table{{border-collapse:collapse;font-size:13px;margin:8px 0}}
th,td{{padding:3px 5px;border-bottom:1px solid var(--grid);text-align:right;white-space:nowrap}}
td.t,th.t{{text-align:left}}
thead th{{position:sticky;top:0;background:var(--face)}}
th button{{all:unset;cursor:pointer;font-weight:600}}
th button:focus-visible,svg:focus-visible{{outline:2px solid var(--ours)}}
.figure svg:focus-visible{{outline-offset:-2px}}
th[aria-sort=ascending] button:after{{content:' \\25B2'}}
th[aria-sort=descending] button:after{{content:' \\25BC'}}
.wrap{{max-height:420px;overflow:auto;border:1px solid var(--grid);margin:8px 0;width:fit-content;max-width:100%}}
.wrap table{{margin:0}}
.tiles{{display:flex;flex-wrap:wrap;gap:10px;margin:12px 0}}
.tile{{background:var(--face);border:1px solid var(--grid);padding:8px 14px;min-width:120px}}
.tile b{{display:block;font-size:20px}}
.tile span{{color:var(--mute);font-size:13px}}
.bad{{color:var(--nox);font-weight:600}}
.good{{color:var(--control);font-weight:600}}
.mute{{color:var(--mute)}}
code,pre{{font-family:{MONO};font-size:13px}}
pre{{overflow-x:auto}}
.checks td{{white-space:normal}}
nav a{{margin-right:14px;display:inline-block}}
#tip{{position:absolute;pointer-events:none;background:var(--ink);color:var(--ground);font-size:12px;padding:3px 7px;max-width:min(60ch,100%);white-space:pre-line;z-index:9}}
#tip:empty{{padding:0}}
.mark{{pointer-events:none}}
.theme,.scale,.whole{{background:var(--face);color:var(--ink);border:1px solid var(--grid);padding:4px 10px;cursor:pointer}}
.theme,.scale{{float:right;margin:22px 0 0 8px}}
.whole{{position:fixed;right:16px;bottom:16px}}
svg.zoom>g:not(.zoomed),svg.zoom>.dash{{display:none}}
rect[data-counts]{{cursor:crosshair}}
@page{{size:A4;margin:14mm}}
@media print{{
body{{font-size:11pt}}
main,header{{padding:0}}
.theme,.scale,.whole,.hint,.mark,#tip,nav{{display:none}}
thead th{{position:static}}
h2,h3,h4,p,summary{{break-after:avoid}}
.figure+p,.wrap+p{{break-before:avoid;break-after:auto}}
.wrap{{max-height:none;overflow:visible;border:0}}
.wrap table{{font-size:8pt}}
.wrap th,.wrap td{{padding:2px 4px}}
.figure{{overflow:visible;break-inside:avoid}}
.figure svg{{max-width:100%;max-height:225mm;width:auto;height:auto}}
.panels,.panels svg{{break-inside:avoid}}
.panels{{break-inside:auto}}
details::details-content{{content-visibility:visible;display:block}}
thead,tr,.tile{{break-inside:avoid}}
pre{{white-space:pre-wrap}}
}}
"""
# What both pages have: what a place of a picture says, below the pointer or by arrow keys; a drag over a spectrum by mouse or finger, or by Shift and
# arrow keys, of which `dragged` is told the part (after a click from and to are alike); a picture in full size, a logarithmic axis, and the theme.
SCRIPT = """
var commas=function(n){return String(n).replace(/\\B(?=(\\d{3})+$)/g,',')};
var meaning=function(r){var scale=+(r.dataset.scale||1),offset=+(r.dataset.offset||0);
return function(n){var v=+(n*scale+offset).toPrecision(6);return Number.isInteger(v)?commas(v):v}};
var root=document.documentElement,tip=document.getElementById('tip');
var below=function(e){return e.target.closest&&e.target.closest('rect[data-counts]')};
var bins=function(r){return(r.dataset.counts||'0').split(' ')};
var say=function(r,k,x,y){
var d=r.dataset,width=+d.width,from=+d.first+k*width,means=meaning(r);
var text=d.counts?(width>1?means(from)+' to '+means(from+width-1):means(from))+': '+commas(bins(r)[k])+(d.line?'; line '+d.line.split(' ')[k]:''):r.textContent;
if(tip.textContent!==text)tip.textContent=text;
tip.style.left=0;tip.style.left=scrollX+Math.max(Math.min(x+14,innerWidth-tip.offsetWidth-4),0)+'px';tip.style.top=scrollY+Math.min(y+14,innerHeight-tip.offsetHeight)+'px'};
document.addEventListener('mousemove',function(e){
var r=below(e),n=r&&bins(r).length;
if(r)say(r,Math.min(Math.floor(part(r,e)*n),n-1),e.clientX,e.clientY);else tip.textContent=''});
var make=function(kind,its,to){var made=document.createElementNS(to.namespaceURI,kind);for(var name in its)made.setAttribute(name,its[name]);return to.appendChild(made)};
var box=function(r){return['x','y','width','height'].map(function(name){return+r.getAttribute(name)})};
var part=function(r,e){var b=r.getBoundingClientRect();return Math.min(Math.max((e.clientX-b.left)/b.width,0),1)};
var mark,cover=function(r,from,to){var b=box(r);if(mark)mark.remove();
mark=make('rect',{class:'l-ink waits k1 mark',x:b[0]+b[2]*from,y:b[1],width:b[2]*(to-from),height:b[3]},r.parentNode)};
var drag=null,dragged=function(){};
document.addEventListener('pointerdown',function(e){
var r=below(e);
if(!r||e.button||!e.isPrimary)return;
if(e.pointerType!=='touch')e.preventDefault();
drag={r:r,from:part(r,e)}});
['pointermove','pointerup','pointercancel'].forEach(function(kind){document.addEventListener(kind,function(e){
if(!drag||!e.isPrimary)return;
var its=drag,to=part(its.r,e),low=Math.min(its.from,to),wide=Math.abs(to-its.from);
cover(its.r,low,low+wide);
if(kind==='pointermove')return;
drag=null;mark.remove();
if(kind==='pointerup')dragged(its.r,low,wide>.02?low+wide:low)})});
var places=function(svg){var its=[];svg.querySelectorAll('rect>title').forEach(function(it){bins(it.parentNode).forEach(function(_,k){its.push([it.parentNode,k])})});return its};
var reading={},steps={ArrowLeft:-1,ArrowRight:1,PageUp:-10,PageDown:10,Home:-1/0,End:1/0};
var read=function(svg,step,grows){
if(reading.svg!==svg)reading={svg:svg,at:0,from:0};
var its=places(svg),keep=function(at){return Math.max(Math.min(at,its.length-1),0)};
reading.at=keep(reading.at+step);reading.from=grows?keep(reading.from):reading.at;
var r=its[reading.at][0],k=its[reading.at][1],from=its[reading.from],n=bins(r).length,other=from[0]===r?from[1]:k;
reading.part=[r,(Math.min(k,other)+1e-6)/n,(Math.max(k,other)+1-1e-6)/n];
cover.apply(null,reading.part);if(step)mark.scrollIntoView({block:'nearest',inline:'nearest'});
var b=r.getBoundingClientRect();say(r,k,b.left+b.width*(k+.5)/n,b.top+b.height/2)};
document.addEventListener('focusin',function(e){if(e.target.matches('svg:focus-visible'))read(e.target,0,true)});
document.addEventListener('focusout',function(e){if(e.target===reading.svg){mark.remove();tip.textContent='';reading.svg=null}});
document.addEventListener('keydown',function(e){
var svg=e.target,its=reading.part;
if(!svg.matches('svg')||reading.svg!==svg&&!/^Arrow/.test(e.key)||e.altKey||e.ctrlKey||e.metaKey)return;
if(e.key in steps)read(svg,steps[e.key],e.shiftKey);
else if(e.key==='Enter'){
var one=reading.at===reading.from;
if(its[0].dataset.counts)dragged(its[0],its[1],one?its[1]:its[2]);
if(one)svg.dispatchEvent(new MouseEvent('click',{bubbles:true}));else read(svg,-1/0)}
else return;
e.preventDefault()});
document.addEventListener('click',function(e){
var it=e.target.closest&&e.target.closest('.figure');
if(it)it.classList.toggle('full')});
document.querySelector('.scale').onclick=function(){root.classList.toggle('logarithmic')};
addEventListener('beforeprint',function(){document.querySelectorAll('details').forEach(function(it){it.open=true})});
document.querySelector('.theme').onclick=function(){
var theme=root.dataset.theme||(matchMedia('(prefers-color-scheme:dark)').matches?'dark':'light');
root.dataset.theme=theme==='dark'?'light':'dark'};
"""
# A drag over a spectrum draws the numbers below it alone, in bins as fine as they are; a double click or the button draws all again.
ZOOM = """
var whole=document.createElement('button');
whole.className='whole';whole.textContent='whole axes';whole.hidden=true;document.body.append(whole);
var unpacked=function(text){var its=[];text.split(' ').forEach(function(it){var n=+it;if(n<0)while(n++<0)its.push(0);else its.push(n)});return its};
var summed=function(its,per){var out=[];its.forEach(function(n,k){var at=Math.floor(k/per);out[at]=(out[at]||0)+n});return out};
var label=function(to,x,y,kind,text){make('text',{x:x,y:y,class:'mute s10 '+kind},to).textContent=text};
var draw=function(r,counts,over){
var svg=r.ownerSVGElement,b=box(r),x=b[0],w=b[2],h=b[3],foot=b[1]+h,g=make('g',{class:'zoomed'},svg),peak=Math.max.apply(null,counts.concat(over.map(Math.ceil),1));
svg.insertBefore(g,r);svg.classList.add('zoom');
['lin','log'].forEach(function(kind){
var to=make('g',{class:kind},g),high=function(n){return h*(kind==='log'?Math.log(Math.max(2*n,1))/Math.log(2*peak):n/peak)},ticks=[peak];
[[counts,svg.querySelector('.lin path').getAttribute('class'),'z'],[over,'l-waits','']].forEach(function(it){
var way='M'+x+' '+foot;it[0].forEach(function(n,k){way+='H'+(x+k*w/it[0].length)+'V'+(foot-high(n))});
if(it[0].length)make('path',{d:way+'H'+(x+w)+'V'+foot+it[2],class:it[1]},to)});
if(kind==='log')for(var n=1;n*1.8<peak;n*=10)ticks.push(n);else ticks.push(0);
ticks.forEach(function(n){label(to,x-5,foot-high(n)+4,'r',n<1e5?commas(n):(n/1e3).toPrecision(3)+'k')})});
make('path',{d:'M'+x+' '+(foot+.5)+'h'+w,class:'l-mute thin'},g);
for(var k=0;k<5;k++){make('path',{d:'M'+(x+k*w/4)+' '+foot+'v4',class:'l-mute thin'},g);
label(g,k<4?x+k*w/4:svg.viewBox.baseVal.width,foot+14,k<4?'m':'r',meaning(r)(Math.round(+r.dataset.first+k*counts.length*r.dataset.width/4)))}};
var zoom=function(r,from,to){
var its=r.dataset;
if(!r.all)r.all={first:+its.first,width:its.width,counts:its.counts,line:its.line,each:+(its.each||its.width),fine:unpacked(its.fine||its.counts),over:its.over?unpacked(its.over):[]};
var all=r.all,shown=its.counts.split(' ').length*its.width,at=function(part){return(+its.first+part*shown-all.first)/all.each};
var low=Math.floor(at(from)),size=Math.max(Math.ceil(at(to))-low,4),per=1;while(size/per>128)per*=2;
size=Math.ceil(size/per)*per;low=Math.max(Math.min(low,all.fine.length-size),0);
var counts=summed(all.fine.slice(low,low+size),per),over=summed(all.over.slice(low,low+size),per);
reset(r);its.first=all.first+low*all.each;its.width=per*all.each;its.counts=counts.join(' ');
if(over.length)its.line=over.map(function(n){return+n.toPrecision(4)}).join(' ');
draw(r,counts,over);whole.hidden=false};
var reset=function(r){
var svg=r.ownerSVGElement,g=svg.querySelector('.zoomed');
if(g){g.remove();svg.classList.remove('zoom');['first','width','counts','line'].forEach(function(it){if(r.all[it]!==undefined)r.dataset[it]=r.all[it]})}};
dragged=function(r,from,to){if(to>from)zoom(r,from,to)};
document.addEventListener('dblclick',function(e){if(below(e))reset(below(e))});
whole.onclick=function(){document.querySelectorAll('svg.zoom rect[data-counts]').forEach(reset);whole.hidden=true};
"""
# Sorts a table by a column.
SORT = """
document.querySelectorAll('table.sort').forEach(function(t){
var heads=t.querySelectorAll('th');
heads.forEach(function(head,i){head.firstChild.onclick=function(){
var down=head.getAttribute('aria-sort')!=='descending';
heads.forEach(function(other){other.removeAttribute('aria-sort')});
head.setAttribute('aria-sort',down?'descending':'ascending');
var value=function(row){var cell=row.cells[i],v=cell.dataset.v;
return head.className==='t'&&v===undefined?cell.textContent:v===undefined?-Infinity:+v};
Array.from(t.tBodies[0].rows).map(function(row,k){return{v:value(row),k:k,row:row}})
.sort(function(a,b){return(a.v<b.v?-1:a.v>b.v?1:0)*(down?-1:1)||a.k-b.k})
.forEach(function(it){t.tBodies[0].appendChild(it.row)})}})});
"""


class Column:
    """The head of a column of a table, and whether its cells are texts."""

    def __init__(self, title: str, is_text: bool = False) -> None:
        self.title, self.is_text = title, is_text


class Cell:
    """A number by which is sorted, and what is shown."""

    def __init__(self, value: float, text: str) -> None:
        self.value, self.text = value, text


# Texts, numbers and cells.
Row = Sequence[object]


def table(columns: Sequence[Column], rows: Sequence[Row], is_sorted: bool = True) -> str:
    """A table, which can be sorted by each column."""
    titles = (f"<button>{escape(it.title)}</button>" if is_sorted else escape(it.title) for it in columns)
    heads = "".join(f'<th scope="col"{_kind(it)}>{title}</th>' for it, title in zip(columns, titles))
    lines = ("<tr>" + "".join(_cell(column, cell) for column, cell in zip(columns, row)) + "</tr>" for row in rows)
    return f'<div class="wrap"><table class="sort"><thead><tr>{heads}</tr></thead><tbody>{"".join(lines)}</tbody></table></div>'


def region_table(rows: Sequence[Row]) -> str:
    """What was measured in regions."""
    from camac.pictures.regions import COLUMNS

    return table([Column("region", True), *(Column(title) for _, title in COLUMNS)], rows, False)


def _kind(column: Column) -> str:
    return ' class="t"' if column.is_text else ""


def _cell(column: Column, cell: object) -> str:
    if isinstance(cell, int):
        cell = Cell(cell, f"{cell:,}")
    elif isinstance(cell, float):
        cell = Cell(round(cell, 4), f"{cell:,.1f}")
    if isinstance(cell, Cell):
        return f"<td{_kind(column)} data-v={cell.value}>{escape(cell.text)}</td>"
    return f"<td{_kind(column)}>{escape(cell)}</td>"


def figure(canvas: Canvas) -> str:
    """A picture in the page. It is as wide as the page at most; a click shows it in full size."""
    return f'<div class="figure">{canvas.figure()}</div>'


def panels(groups: Sequence[Group]) -> str:
    """Small pictures, as many beside each other as there is room for."""
    if not groups:
        return '<p class="mute">Nothing to show: no event, no word.</p>'
    return "".join(f'<h4>{escape(it.title)}</h4><div class="panels">{"".join(one.figure() for one in it.panels)}</div>' for it in groups)


def header(title: str, parts: Sequence[str] = ()) -> str:
    """The head of a page; its buttons change the theme, and the axis of counts."""
    return f'<header><button class="theme">dark / light</button><button class="scale">log / linear</button><h1>{escape(title)}</h1>{"".join(parts)}</header>'


def page(title: str, head: str, parts: Sequence[str], script: str = SORT + ZOOM, more: str = "") -> str:
    """A page that runs no script but its own. It fetches nothing, but for what `more` of its policy allows."""
    whole = SCRIPT + script
    digest = binascii.b2a_base64(hashed(whole.encode()).digest(), newline=False).decode()
    policy = f"default-src 'none';style-src 'unsafe-inline';script-src 'sha256-{digest}'{more}"
    return (
        '<!DOCTYPE html>\n<html lang="en"><head><meta charset="utf-8">'
        f'<meta http-equiv="Content-Security-Policy" content="{policy}">'
        '<meta name="viewport" content="width=device-width,initial-scale=1">'
        f"<title>{escape(title)}</title><style>{THEMES}{STYLE}{page_style()}</style></head>\n"
        f'<body>{head}<main>{"".join(parts)}</main><div id="tip" aria-live="polite"></div><script>{whole}</script></body></html>\n'
    )
