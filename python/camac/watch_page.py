"""What the pages of `watch` have besides their parts: what the spectra show is chosen in a form, and a script asks for the parts again and again."""
from camac.report.page import KEYS

LOST = '<p class="bad" id="lost" role="alert" hidden>The command <code>watch</code> does not answer.</p>'
# What a page may fetch, and the seconds between two questions.
MORE, REFRESH = ";connect-src 'self'", 2.0
# By their names in the query of an address, the events whose spectra are shown.
WINDOWS = (
    ("", "of the whole run"), ("since=0", "since the last clear"), ("seconds=10", "of the last 10 s"), ("seconds=60", "of the last minute"),
    ("seconds=600", "of the last 10 minutes"), ("events=1000", "of the last 1,000 events"), ("events=100000", "of the last 100,000 events"),
)
STYLE = """<style>
form{display:flex;flex-wrap:wrap;gap:8px 14px;align-items:center;margin:26px 0 0;padding-top:14px;border-top:1px solid var(--grid)}
form button,form select,form input,form textarea{font:inherit;background:var(--face);color:var(--ink);border:1px solid var(--grid);padding:3px 8px;max-width:100%}
form input[type=number]{width:100px}
[aria-pressed=true]{outline:2px solid var(--nox)}
#one .figure svg{width:100%;min-width:540px;max-width:none;touch-action:pan-y pinch-zoom}
form div{flex:1 1 300px}
form textarea{display:block;width:100%}
</style>"""
FORM = (
    '<form id="look" aria-label="What the spectra show"><label>Spectra <select name="window">'
    + "".join(f'<option value="{value}">{text}</option>' for value, text in WINDOWS)
    + '</select></label><button type="button" id="clear">clear</button>'
    '<label>large <input name="of" list="names" size="24"></label><datalist id="names"></datalist>'
    '<label>from <input name="low" type="number" min="0"></label><label>to <input name="last" type="number" min="0"></label>'
    '<button type="button" id="whole">whole</button><label>against <input name="up" list="names" size="24"></label>'
    '<button type="button" id="sound" aria-pressed="false">sound of alarms</button>'
    + "".join(
        f'<div>{text} <button type="button" id="add-{name}" title="adds the part that is shown large">add this part</button>'
        f'<textarea name="{name}" aria-label="{text}" rows="1" placeholder="NAME LOW..HIGH, one in a line"></textarea></div>'
        for name, text in (("gate", "only events with"), ("region", "regions"))
    )
    + '</form>'
    '<p class="mute">Click on a spectrum, or type its name, to see it large; drag to see a part, and to measure it. A double click or <i>whole</i> shows all. ' + KEYS + "</p>"
    '<div id="one"></div>'
)
NOTES = '<div id="alarms" role="alert"></div><div id="notes"></div><div id="tiles"></div>'
# What asks for the parts: `query` is what the form says, and `tell` is called with each answer, or without one.
ASK = f"""
var lost=document.getElementById('lost'),shown={{}},timer,query=function(){{return ''}},tell=function(){{}};
var put=function(to,text){{var its=reading.svg,of=its&&to.contains(its)&&its.getAttribute('aria-label');to.innerHTML=text;
if(of)to.querySelectorAll('svg').forEach(function(it){{if(it.getAttribute('aria-label')===of){{reading.svg=it;it.focus({{preventScroll:true}})}}}})}};
var ask=function(){{var mine=query();clearTimeout(timer);fetch('state'+mine).then(function(r){{if(!r.ok)throw r;return r.json()}}).then(function(parts){{
lost.hidden=true;
if(mine===query()&&!drag){{for(var name in parts)if(shown[name]!==parts[name]){{shown[name]=parts[name];put(document.getElementById(name),parts[name])}}tell(parts)}}
}}).catch(function(){{lost.hidden=false;tell()}}).then(function(){{clearTimeout(timer);timer=setTimeout(ask,{int(1000 * REFRESH)})}})}};
"""
SCRIPT = (
    ASK
    + """
var look=document.getElementById('look'),field=look.elements,audio;
query=function(){var q=[field.window.value];['of','low','last','up','gate','region'].forEach(function(name){field[name].value.split('\\n').forEach(function(it){
if(it.trim())q.push(name+'='+encodeURIComponent(it.trim()))})});q=q.filter(Boolean).join('&');return q&&'?'+q};
['gate','region'].forEach(function(name){document.getElementById('add-'+name).onclick=function(){if(!field.of.value||!field.last.value)return;
var to=field[name],its=to.value.split('\\n').filter(Boolean);its.push(field.of.value+' '+(field.low.value||0)+'..'+field.last.value);to.value=its.join('\\n');to.rows=its.length;ask()}});
var show=function(of,low,last){field.of.value=of;field.low.value=low;field.last.value=last;ask()};
look.onchange=ask;look.onsubmit=function(e){e.preventDefault();ask()};
document.getElementById('clear').onclick=function(){field.window.options[1].value='since='+document.querySelector('.tiles').dataset.events;field.window.selectedIndex=1;ask()};
document.getElementById('whole').onclick=function(){show(field.of.value,'','')};
document.getElementById('sound').onclick=function(){if(audio){audio.close();audio=null}else{audio=new AudioContext();beep(.1)}this.setAttribute('aria-pressed',!!audio)};
var beep=function(seconds){if(!audio)return;var it=audio.createOscillator();it.frequency.value=880;it.connect(audio.destination);it.start();it.stop(audio.currentTime+seconds)};
tell=function(parts){if(!parts||parts.alarms)beep(.5)};
dragged=function(r,from,to){var of=r.ownerSVGElement.getAttribute('aria-label'),d=r.dataset,n=d.counts.split(' ').length*d.width;
var at=function(part){return Math.min(n-1,Math.floor(part*n))+ +d.first};
if(!r.closest('#channels,#one'))return;
if(to>from)show(of,at(from),at(to));else if(r.closest('#channels')){show(of,'','');document.getElementById('one').scrollIntoView({block:'nearest'})}};
document.getElementById('one').ondblclick=function(){document.getElementById('whole').click()};
ask();
"""
)
