"""The style and the script of a page. Nothing is fetched from elsewhere."""

STYLE = """
:root{color-scheme:light dark;--ink:#1d2329;--soft:#59636e;--paper:#ffffff;--panel:#f5f7f9;--rule:#d5dbe1;--level:#1b6ca8;
--marginal:#9a5b00;--below:#b3261e;--good:#1a7f37;--bad:#b3261e;--on:#ffffff;
--s0:#1b6ca8;--s1:#b84a00;--s2:#007a5a;--s3:#a03a7c;--s4:#8a6d00;--s5:#4f5bd5;--s6:#5c6670;--s7:#7a3e00}
@media (prefers-color-scheme:dark){:root{--ink:#e6eaee;--soft:#a3adb8;--paper:#14181c;--panel:#1c2228;--rule:#38424c;--level:#5aa9e6;
--marginal:#e0a03c;--below:#ff8a80;--good:#57c878;--bad:#ff8a80;--on:#0b0e11;
--s0:#5aa9e6;--s1:#ff9a57;--s2:#3fcf9e;--s3:#e58ac4;--s4:#d9bd3c;--s5:#9aa5ff;--s6:#b4bec8;--s7:#d9a066}}
*{box-sizing:border-box}
body{margin:0 auto;max-width:76rem;padding:1.5rem;font:15px/1.5 system-ui,sans-serif;color:var(--ink);background:var(--paper)}
h1{font-size:1.5rem;margin:0 0 .3rem;overflow-wrap:anywhere}h2{font-size:1.15rem;margin:2rem 0 .6rem;border-bottom:1px solid var(--rule)}
h3{font-size:1rem;margin:1.4rem 0 .4rem}p{margin:.4rem 0}nav a{margin-right:1rem}a{color:var(--level)}
pre,code,td.element{font-family:ui-monospace,monospace;font-size:13px}
pre{background:var(--panel);padding:.7rem 1rem;overflow-x:auto;border-radius:6px;white-space:pre-wrap;overflow-wrap:anywhere;max-height:26rem;overflow-y:auto}
.charts{display:flex;flex-wrap:wrap;gap:1.5rem;align-items:flex-start}
figure{margin:.5rem 0;max-width:100%}figcaption{font-weight:600;margin-bottom:.3rem}
svg{max-width:100%;height:auto;display:block}
svg text{font:11px ui-sans-serif,system-ui,sans-serif;fill:var(--ink)}svg text.tick{fill:var(--soft)}svg text.on{fill:var(--on)}
svg .rule{stroke:var(--rule)}svg .zero{stroke:var(--soft)}
rect.level{fill:var(--level)}rect.marginal{fill:var(--marginal)}rect.below{fill:var(--below)}rect.none{fill:none;stroke:var(--rule)}
polyline{fill:none;stroke-width:2}line.series,line.level,line.marginal{stroke-width:2}
.s0{stroke:var(--s0)}.s1{stroke:var(--s1);stroke-dasharray:7 3}.s2{stroke:var(--s2);stroke-dasharray:2 3}.s3{stroke:var(--s3);stroke-dasharray:9 3 2 3}
.s4{stroke:var(--s4)}.s5{stroke:var(--s5);stroke-dasharray:4 4}.s6{stroke:var(--s6);stroke-dasharray:1 4}.s7{stroke:var(--s7);stroke-dasharray:12 4}
circle{stroke-dasharray:none!important;fill:var(--paper);stroke-width:1.5}
.marginal.s0{stroke:var(--marginal)}
table{border-collapse:collapse;font-size:14px}th,td{padding:.2rem .7rem;text-align:right;border-bottom:1px solid var(--rule);white-space:nowrap}
th{position:sticky;top:0;background:var(--panel);text-align:right}th.text,td.text{text-align:left}
td{font-variant-numeric:tabular-nums}td.zero{color:var(--soft)}
th button{all:unset;cursor:pointer;font-weight:600}th button:focus-visible,input:focus-visible{outline:2px solid var(--level)}
th[aria-sort=ascending] button::after{content:" \\25B2"}th[aria-sort=descending] button::after{content:" \\25BC"}
.scroll{max-height:30rem;overflow:auto;border:1px solid var(--rule);border-radius:6px;display:inline-block;max-width:100%;vertical-align:top}
.filter{margin:.3rem 0}.filter input{font:inherit;padding:.2rem .5rem;border:1px solid var(--rule);border-radius:4px;background:var(--paper);color:var(--ink)}
.good{color:var(--good);font-weight:600}.bad{color:var(--bad);font-weight:600}.note{color:var(--soft)}
details{margin:.4rem 0}summary{cursor:pointer}
@media print{body{max-width:none;padding:0;font-size:11px}.filter,nav{display:none}.scroll,pre{max-height:none;overflow:visible;border:0}
figure,tr,.symbol{break-inside:avoid}h2,h3{break-after:avoid}}
"""

SCRIPT = """
'use strict';
document.querySelectorAll('table.sortable').forEach(function(table){
  var body=table.tBodies[0],heads=table.tHead.rows[0].cells;
  Array.prototype.forEach.call(heads,function(head,k){
    var button=head.querySelector('button');
    if(!button){return;}
    button.addEventListener('click',function(){
      var down=head.getAttribute('aria-sort')==='ascending',sign=down?-1:1;
      Array.prototype.forEach.call(heads,function(it){it.removeAttribute('aria-sort');});
      head.setAttribute('aria-sort',down?'descending':'ascending');
      Array.prototype.slice.call(body.rows).sort(function(a,b){
        return sign*(Number(a.cells[k].dataset.rank)-Number(b.cells[k].dataset.rank));
      }).forEach(function(row){body.appendChild(row);});
    });
  });
});
document.querySelectorAll('.filter input').forEach(function(input){
  var table=document.getElementById(input.dataset.table),told=document.getElementById(input.dataset.table+'n');
  input.addEventListener('input',function(){
    var words=input.value.toLowerCase().split(/\\s+/).filter(Boolean),shown=0;
    Array.prototype.forEach.call(table.tBodies[0].rows,function(row){
      var text=row.textContent.toLowerCase(),fits=words.every(function(word){return text.indexOf(word)>=0;});
      row.hidden=!fits;shown+=fits?1:0;
    });
    told.textContent=shown+' of '+table.tBodies[0].rows.length;
  });
});
window.addEventListener('beforeprint',function(){
  document.querySelectorAll('details').forEach(function(it){it.open=true;});
});
"""
