"""Pieces of sources with each error, by its number, and changes of right sources at a few places.

A piece is by itself: its names begin with `q`, which no drawn name does. Each is put among
statements that are right.
"""
import re

from tests.random_sources.draw import Draw

SET = 'set q1 /qa,qb,qc/, q2 /qc,qa/, q3(q1) /qb/; parameter qp(q1) /qa 1/, qq(q1,q2); scalar qs; '
MODEL = 'variable qx, qz; positive variable qy(q1); equation qe, qf(q1); '
LONG = 'q' * 64

SOURCE = {
    1: ['scalar qs; qs = 1 ? 2;', 'set q1 /qa\x01/;', 'set q1 "caf\xe9" /qa/;', '* comment \x02', 'scalar qs; qs = 1 & 2;', '$title \xe9',
        'scalar qs\r;', 'set q1 /\xe9/;', 'display \xe9;', 'scalar qs; qs = _a;', 'scalar q\x7f;'],
    2: ['display "x', "display 'ab\";", 'set q1 /"qa, qb/;', 'scalar qs "text;', 'alias("a,b);'],
    3: ['\n$ontext\nnever closed\n', '\n$ONTEXT'],
    4: ['scalar %s;' % LONG, 'set q1 /%s/;' % LONG, 'set q1 /"%s"/;' % LONG, 'qs = %s;' % LONG, 'set q1 /qa.%s/;' % LONG],
    5: ['\n*%s\n' % ('x' * 32768), '\nscalar qs; %s qs = 1;\n' % (' ' * 32760)],
    6: ['\n$include x.gms\n', '\n$ title\n', '\n$\n', '\n$title(x)\n', '\n$offtext2\n', '\n$on text\n'],
    11: ['scalar sum;', 'set q1 /qa,/;', 'scalar qs; qs =', 'set q1 / /;', 'scalar qs; qs = 1 + -2;', 'equation qe(q1); qe(q1+1).. 1 =e= 1;',
         'scalar qs; qs = 1--2;', 'set 5;', 'set q1 /qa/ /qb/;', 'variable qx /5/;', 'scalar qs(q1);', 'model qm(q1) /all/;', 'model qm /all, qe/;',
         'table qp\n  qx\nqa  1;', 'table qp(*,*) /qa/;', 'table qp(*,*) miles, or km\n  qx\nqa 1;', 'scalar qs "t" more /1/;', 'option set = 5;',
         'option limrow = -1;', 'solve qm using set minimizing qz;', 'display;', 'loop(q1, qs = 1 display qs);', 'loop(q1, qs = 1;; display qs);',
         'loop(q1, qe.. 1 =e= 1);', 'loop(q1, set q2 /qa/);', 'loop(q1, );', 'abort "a" "b";', 'qs = 1 2;', 'qs = (1;', 'qs = 1);', 'qs() = 1;',
         'qs = abs;', 'qs = ord(1);', 'qs = sum(q1);', 'qs.q = 1;', 'qs = 1 = e = 2;', 'qs = qa =e= 1;', 'parameter qp(*) /qa\n5/;',
         'parameter qp(*) /qa qb/;', 'set q1(*,*) /qa..qb/;', 'set q1 /qa**qb/;', 'parameter qp(*) /qa --5/;', 'set q1(*,*) /qa.\nqb/;',
         'set q1\n(*) /qa/;', 'set q1 (canning plants) /qa/;', 'alias(q1);', 'alias(q1,q2,q3);', 'qs = 1 xor;', 'qs = not;', 'qs $ 1 =;',
         'display "%s", qp("%s");' % (LONG, LONG), 'qs = qp("%s");' % LONG, 'solve qm minimizing using lp qz;', 'set q1, parameter qp;',
         'set set q1;', 'qs = 2e;', 'qs = 1.5.3;', 'qs = 1..2;', 'scalar qs /5', 'set q1 /(qa,qb/;', 'set q1 /(qa).(/;', 'option lp;', 'qs = max();'],
    12: ['qs = %s1%s;' % ('(' * 101, ')' * 101), 'qs = %s1%s;' % ('abs(' * 102, ')' * 102)],
    13: ['qs = 1e39;', 'scalar qs /170141183460469231731687303715884105728/;', 'parameter qp(*) /qa 1e-39/;', 'qs = 1.23e-37;', 'option limrow = 1e40;'],
    14: ['if(qs, qs = 1);', 'while(qs, qs = 1);', 'put qs;', 'file qs;', 'acronym qs;', 'qs = eps;', 'qs = undf;', 'for(qs = 1);', 'scalar eps;',
         'scalar qs /eps/;', 'option eps = 5;'],
    15: ['set q1 /1*65536/, q2 /"one more"/;'],
    21: ['table qp(*,*)\n     qx\nqa       5;', 'table qp(*,*)\n  qx\n+\nqa  1;', 'table qp(*,*)\n     qx\nqa       1e999;'],
    22: ['table qp(*,*)\n     qx qy\nqa    12345;', 'table qp(*,*)\n\tqx qy\nqa\t12345'],
    23: ['table qp(*,*)\n   qx qx\nqa  1  2;', 'table qp(*,*)\n   qx\nqa  1\nQA  2;', 'table qp(*,*)\n   qx\nqa  1\n+  qx\nqa  1;'],
    24: ['table qp(*,*)\n   qx\nqa  ?;', 'table qp(*,*)\n+  qx\nqa  1;', 'table qp(*,*)\n   "qx\nqa  1;', 'table qp(*,*)\n   qx\nqa  - 1;',
         'table qp(*,*)\n   qx\nqa  inf;', 'table qp(*,*)\n   qx\n.qa 1;', 'table qp(*,*)\n   %s\nqa 1;' % LONG, 'table qp(*,*)\n   qx\nqa 1e99;'],
    25: ['table qp(*,*);', 'table qp(*,*)\ndisplay "x";', 'table qp(*,*) miles; display "x";', 'table qp(*,*)\n* none\n;'],
}

COMPILE = {
    1: [SET + 'qs = qnone;', SET + 'qp(qnone) = 1;', 'alias(qn1,qn2);', 'option foo = 1;', SET + 'qs = card(qnone);', SET + 'qs = ord(qnone);',
        'display qnone;', 'solve qnone using lp minimizing qzz;', 'model qm /qnone/;', 'parameter qp(qnone);', 'loop(qnone, abort);', 'qn.. 1 =e= 1;',
        SET + 'qs = sum(qnone, 1);', 'set q1(q1) /qa/;', SET + 'qp(q1+(qnone)) = 1;', SET + 'qp(q1+qnone) = 1;'],
    2: [SET + 'scalar qp;', SET + 'alias(q1,q2);', SET + 'set q1;', 'variable qx; positive variable qx; free variable qx;',
        SET + 'variable qx; positive variable qx(q1);', SET + 'alias(q1,q1);', 'model qm, qm;', 'equation qe; variable qe;'],
    3: [SET + 'qp("qa") = yes;', SET + 'q3(q1) = 5;', SET + 'qs = yes;', SET + 'qs = q1("qa");', SET + 'q3(q1) = qp(q1) > 2;', 'variable qx; qx = 5;',
        SET + 'qs = sum(qp, 1);', SET + 'set q4(qp);', SET + 'qp(q1+qp) = 1;', SET + 'qp(q1+(-1)) = 1;', SET + 'qp(q1+1.5) = 1;', SET + 'alias(qs,q5);',
        SET + 'qs.l = 1;', SET + MODEL + 'qe.l = 1;', SET + MODEL + 'qs = qx.fx;', SET + MODEL + 'qs = qe.lo;', SET + MODEL + 'display qx.fx;',
        SET + 'q3(q1) = q1(q1)/q1(q1);', SET + 'q3(q1) = q1(q1)**q1(q1);', SET + 'q3(q1) = q1(q1) and q1(q1);', SET + 'q3(q1) = q1(q1) + (1 < 2);',
        SET + 'q3(q1) = 1$qs;', SET + 'q3(q1) = -inf;', SET + 'q3(q1) = sum(q2, 1);', SET + 'qs$yes = 1;', SET + 'qs = qs + 2$yes;', SET + 'qs = sum(q1$yes, 1);',
        SET + MODEL + 'qe.. yes =e= qx;', SET + 'solve qs using lp minimizing qs;', SET + MODEL + 'qm.modelstat = 1;', 'model qm; qm.modelstat = 1;',
        'model qm; display qm;', SET + 'display qs.l;', SET + 'qs = q3;', SET + 'qs = card(qp);', SET + 'qs = ord(qp);', SET + 'scalar qt /1/; qs = ord(qt);', SET + 'scalar qt /1/; loop(q1, qp(q1+qt) = qp(q1-qs) + card(qt));',
        SET + MODEL + 'model qm /qe/, qn /qm/;', SET + 'qp.. 1 =e= 1;', SET + MODEL + 'qe.. qx =e= q1("qa");', SET + 'set q6(q1,q2); qs = sum(q6, 1);',
        SET + 'set q6(q1,q2); qp(q6) = 1;', SET + 'loop(q1, q1 = 1);', SET + 'qs = max(yes, 1);', SET + 'abort$yes;', SET + 'loop(q1$no, qs = 1);'],
    4: [SET + 'qp = 1;', SET + 'qs("qa") = 1;', SET + 'qs = qp;', SET + 'qs = qp("qa","qc");', SET + 'parameter qr(q1) /qa.qc 1/;', 'parameter qr(*,*,*,*,*,*,*,*,*,*,*);',
        SET + MODEL + 'qf.. qx =e= 1;', SET + MODEL + 'qe(q1).. qx =e= 1;', 'set q4 /qa.qb/;', 'parameter qr(*) /qa*qc.qd 1/;', SET + MODEL + 'qe.. qy =e= 1;',
        SET + 'qs = sum((q1,q2,q1,q2,q1,q2,q1,q2,q1,q2,q1), 1);', 'table qr(*)\n   qx\nqa  1;'],
    5: [SET + 'qp(q2) = 1;', SET + 'qs = sum(q2, qp(q2));', SET + MODEL + 'qf(q2).. qx =e= 1;', SET + 'qq(q3,q3) = 1;', SET + 'q3(q2) = yes;', SET + 'qs = sum(q2$q3(q2), 1);'],
    6: [SET + 'qp("qd") = 1;', SET + 'parameter qr(q1) /qd 1/;', SET + 'set q4(q3) /qa/;', SET + 'qs = qq("qa","qb");', SET + MODEL + 'qf("qz").. qx =e= 1;',
        'set q1 /qa/;\ntable qr(q1,*)\n   qx\nqb  1;', 'set q1 /qa/; parameter qr(q1,*) /z.(b3*b1) 1/;', SET + 'display q3; q3("qz") = yes;'],
    7: [SET + 'qs = qp(q1);', SET + 'qs = ord(q1);', SET + 'qp("qa") = qp(q1);', SET + 'alias(q1,q5); qp(q1) = qp(q5);', SET + MODEL + 'qe.. qy(q1) =e= 1;',
        SET + 'set q6(q1,q2); qs = ord(q6);', SET + 'qs = qp("qa")$q3(q1);', SET + 'abort$qp(q1);', SET + 'qs$qp(q1) = 1;'],
    8: [SET + 'qp(q1) = sum(q1, 1);', SET + 'qs = sum((q1,q1), 1);', SET + 'loop(q1, loop(q1, qs = 1));', SET + MODEL + 'qf(q1).. sum(q1, qy(q1)) =e= 1;',
        SET + 'loop(q1, qs = smax(q1, 1));'],
    9: [SET + 'qs = sum(q2, ord(q2));', SET + 'q3(q1) = yes; qs = sum(q3, ord(q3));', SET + 'qs = sum(q2, qq("qa",q2+1));', SET + 'q3(q1) = no; qp(q3+1) = 1;',
        SET + 'qq("qa",q2-1) = 1;', SET + 'loop(q1, q1("qa") = no; qs = ord(q1));', SET + 'set q4 /qb,qa/; qs = sum(q4, ord(q4));',
        SET + 'set q4(q1) /qa,qc,qb/; qs = sum(q4, qp(q4+1));', SET + 'set q4(q1) /qb,qa/; qp(q4-1) = 1;',
        SET + 'set q4 /qc,qb/; loop(q4, qs = ord(q4));', SET + 'set q4 /qb,qa,qc/; parameter qr(q4); qr(q4) = 1 + qr(q4--1);'],
    10: [SET + 'parameter qr(q3); q3(q1) = yes;', SET + 'set q4(q3); q3("qb") = no;', 'set q5 /qa/; alias(q5,q6); parameter qr(q5); q6("qa") = no;',
         SET + 'variable qv(q3); loop(q1, q3(q1) = yes);', 'set q5 /qa/; equation qg(q5); q5("qa") = no;'],
    11: [SET + MODEL + 'qe.. qx*qz =e= 1;', SET + MODEL + 'qe.. 1/qx =e= 1;', SET + MODEL + 'qe.. qx**2 =e= 1;', SET + MODEL + 'qe.. abs(qx) =e= 1;',
         SET + MODEL + 'qe.. prod(q1, qy(q1)) =e= 1;', SET + MODEL + 'qe.. smax(q1, qy(q1)) =e= 1;', SET + MODEL + 'qe.. max(qx, 1) =e= 1;',
         SET + MODEL + 'qe.. 2**qx =e= 1;', SET + MODEL + 'qe.. sum(q1, qy(q1)*qx) =e= 1;', SET + MODEL + 'qf(q1).. 1 =e= (qx + 1)*(2*qy(q1) - 1);',
         SET + MODEL + 'qe.. power(qx, 2) =e= 1;', SET + MODEL + 'qe.. 2*(qx + 1)/qz =e= 1;', SET + MODEL + 'qe.. smin(q1, qx) =e= 1;',
         SET + MODEL + 'qe.. qz =e= qs/qx;', SET + MODEL + 'qe.. sum(q1, 1/qy(q1)) =l= qz;', SET + MODEL + 'qf(q1).. qz - qp(q1)*2/(qy(q1) + 1) =g= 1;',
         SET + MODEL + 'qe.. 3$qs/qz =e= 1;'],
    12: ['binary variable qb;', 'integer variables qb, qc;', 'sos1 variable qb;', 'sos2 variables qb;', 'variable qb; binary variable qb;'],
    13: [SET + MODEL + 'qe.. qx =e= 1; model qm /qe/; solve qm using mip minimizing qz;', SET + MODEL + 'qe.. qx =e= 1; model qm /qe/; solve qm minimizing qz using xyz;'],
    14: [SET + MODEL + 'model qm /qe/; solve qm using lp minimizing qz;', SET + MODEL + 'model qm /qe/; solve qm using lp minimizing qz; qe.. qx =e= 1;',
         SET + MODEL + 'qe.. qx =e= 1; model qm /qe, qf/; loop(q1, solve qm using lp minimizing qz);', 'equation qe; variable qz; model qm /qe/; solve qm using mip minimizing qz;'],
    15: [SET + MODEL + 'qe.. qx =e= 1; qe.. qz =e= 1;', 'qc.. 1 =e= 1; equation qc; qc.. 1 =e= 1;'],
    16: [SET + MODEL + 'qe.. qx =e= 1; model qm /qe/; solve qm using lp minimizing qy;', 'positive variable qv; model qm; solve qm using lp minimizing qv;',
         'free variable qv; positive variable qv(*); model qm; solve qm using lp minimizing qv;',
         'variable qv(*); model qm; solve qm using lp minimizing qv;', SET + 'free variable qv(q1); model qm; solve qm using lp maximizing qv;'],
    17: ['option lp = nobody;', 'options limrow = 1, lp = cplex;'],
    18: ['option decimals = 9;', 'option limrow = 2147483648;', 'option limrow = on;', 'option solprint = 1;', 'option lp = 5;', 'option iterlim = 1.5;',
         'option solprint = maybe;', 'option limcol = 1e10;'],
    19: [SET + MODEL + 'qs = qx;', SET + MODEL + 'display qx;', SET + MODEL + 'qe$qx.. qz =e= 1;', SET + MODEL + 'qe.. qz$(qx > 1) =e= 1;', SET + MODEL + 'q3(q1) = qx;',
         SET + MODEL + 'abort qx;', SET + MODEL + 'qp(q1) = sum(q2$qx, 1);', SET + MODEL + 'qf(q1).. qy(q1+qx) =e= 1;', SET + MODEL + 'qe.. qz*(qx and 1) =e= 1;',
         SET + MODEL + 'qp(q1) = qp(q1) - min(max(qs,qy(q1)+1),3);', SET + MODEL + 'qe.. (qx = 1) + qz =e= 1;', SET + MODEL + 'qe.. not qx =e= 1;'],
    20: [SET + 'qs = sqrt(4);', SET + 'qs = round(1.5, 1);', SET + 'qs = max(1);', SET + 'qs = mod(1);', SET + 'qs = uniform(0,1);', SET + 'qs = power(2);',
         SET + 'qs = abs(1,2);', SET + MODEL + 'qe.. exp(qx) =e= 1;', SET + 'qs = log(1) + log10(2) + sin(1);'],
    21: ['set q7 /q3*q1/;', 'parameter qr(*) /qa 1, QA 2/;', 'set q7 /qa, qa/;', 'set q7(*,*) /(qa,qb).(qa,qa)/;', 'set q7 /q1*r3/;', 'set q7 /q01*q1/;', 'set q7 /q1*q001/;',
         'set q7(*,*) /(q1*q1025).(q1*q1024)/;', 'parameter qr(*) /q1*q70000 1/;', 'set q7 /qa*qa/;', 'set q7 /q1*q1234567890/;', 'set q7 /q5*q5, q4*q6/;'],
}

EXECUTION = {
    1: [SET + 'qs = 2**126; qs = qs*2;', SET + 'qs = 170141183460469231731687303715884105727 + 1;', SET + 'qp(q1) = 10**20*10**ord(q1)*10**17;', SET + 'qs = 1/3**81;',
        SET + 'qs = sum(q1, 9e37);', SET + 'qs = 3**81;', SET + 'qs = power(3,-81);', SET + 'qs = sqr(1e20);', SET + 'qs = 1/2**126 + 1/3**60;', SET + 'qs = 2**100/3 - 2**100/5;',
        SET + MODEL + 'qe.. 1e38*qx*2 =e= qz; model qm /qe/; solve qm using lp minimizing qz;', SET + MODEL + 'qe.. 1.5e38 + qz =e= -1.5e38; model qm /qe/; solve qm using lp minimizing qz;',
        SET + MODEL + 'qe.. 9e37*qx + 9e37*qx =e= qz; model qm /qe/; solve qm using lp minimizing qz;', SET + 'qs = prod(q1, 1e15);',
        SET + 'qs = 170141183460469231731687303715884105725/2 + 3/2;', SET + 'qs = 1e38/7 - 5e37/3; qs = qs*3/1e20;'],
    2: [SET + 'qs = 1/qs;', SET + 'qp(q1) = 1/(ord(q1) - 2);', SET + 'qs = mod(1,0);', SET + 'qs = 0**(-1);', SET + 'qs = power(0,-1);', SET + 'qs = na/0;', SET + 'loop(q1, qs = 1/(2 - ord(q1)));',
        SET + 'qs = sum((q1,q2), 1/(ord(q1) - 3));', SET + 'qs = sum(q1$(1/(ord(q1) - 1)), 1);', SET + 'q3(q1) = no * yes$(1/(ord(q1) - 2));', SET + 'qp(q1)$(1/(ord(q1)-2)) = 1;',
        SET + MODEL + 'qf(q1)$(1/(ord(q1) - 2)).. qx =e= 1; model qm /qf/; loop(q2, solve qm using lp minimizing qz);',
        SET + MODEL + 'qf(q1).. qx/(ord(q1) - 2) =e= 1; model qm /qf/; loop(q2, solve qm using lp minimizing qz);'],
    3: [SET + 'qp(q1) = qp(q1+(1/2));', SET + 'qs = 0.5; qp(q1+qs) = 1;', SET + 'qs = sum((q1,q3), qp(q1-(inf)));', SET + 'qs = na; qs = sum(q1, qp(q1--qs));'],
    4: [SET + 'qs = smin(q1$(ord(q1) > 5), 1);', SET + 'qp(q1) = smax(q3$(ord(q1) = 1), 1);'],
    5: [SET + 'qs = 2**0.5;', SET + 'qs = 2**1025;', SET + 'qs = power(2,inf);', SET + 'qp(q1) = 1**(ord(q1)/2);', SET + 'qs = 1**na;', SET + 'qs = 0**(-1025);'],
    7: ['set q7 /1*4097/; alias(q7,q8); scalar qs; qs = sum((q7,q8), 1);', 'set q7 /1*4097/; alias(q7,q8); parameter qr(*,*); qr(q7,q8) = 1;',
        'set q7 /1*4097/; alias(q7,q8); loop((q7,q8)$(1/0), abort);', 'set q7 /1*4097/; variable qv(q7,q7); display qv.l; display qv.up;',
        'set q7 /1*4097/; variable qz; equation qg(q7,q7); alias(q7,q8); qg(q7,q8).. qz =e= 1; model qm /qg/; solve qm using lp minimizing qz;'],
    8: ['set q7 /1*1501/; variable qz; equation qg(q7); qg(q7).. qz =l= 1; model qm /qg/; solve qm using lp minimizing qz;',
        'set q7 /1*751/; variable qz; equation qg(q7); qg(q7).. qz =e= 1; model qm /qg/; solve qm using lp minimizing qz;'],
    9: ['set q7 /1*1501/; variable qz, qv(q7); equation qg; qg.. sum(q7, qv(q7)) =l= qz; model qm /qg/; solve qm using lp minimizing qz;'],
    11: [SET + 'abort "stop", qs;', SET + 'loop(q1, abort$(ord(q1) = 2) "two", qp);', 'abort;', SET + 'abort$qp("qa") qp, qs;', 'abort "over";'],
    12: [SET + 'qs = inf - inf;', SET + 'qs = inf*0;', SET + 'qs = inf/inf;', SET + MODEL + 'qx.l = inf;', SET + MODEL + 'qx.lo = inf;', SET + MODEL + 'qx.up = na;', SET + MODEL + 'qy.fx(q1) = inf;',
         SET + MODEL + 'qx.m = na;', SET + MODEL + 'qe.. inf + qx =e= qz; model qm /qe/; solve qm using lp minimizing qz;', SET + MODEL + 'qe.. qx =l= inf; model qm /qe/; solve qm using lp minimizing qz;',
         SET + MODEL + 'qf(q1).. qx*qs =l= na; model qm /qf/; solve qm using lp minimizing qz;', SET + 'qs = mod(inf,2);', SET + MODEL + 'qe.. inf - inf + qx =e= qz; model qm /qe/; solve qm using lp minimizing qz;'],
}
TOKEN = re.compile(r'"[^"\n]*"|\'[^\'\n]*\'|[A-Za-z_]\w*|\d+\.?\d*|=[eElLgGnN]=|\*\*|\.\.|<=|>=|<>|\+\+|--|\s+|.', re.S)
KEYWORDS = frozenset('set sets parameter parameters scalar scalars table variable variables equation equations model models alias option options solve '
                     'using lp minimizing maximizing display abort loop positive negative free yes no not and or xor'.split())
SPARE = ['(', ')', ',', ';', '.', '$', '+', '-', '*', '/', '=', '<', '=e=', '..', '++', '**', '1', '0', '2.5', 'a', 'i', 't', 'x', '"a"', 'sum', 'set', 'yes',
         'inf', 'na', 'not', 'and', 'display', 'loop', 'l', 'all', ' ', '\n', '\n*', '\n$', '"', "'", 'abs', 'ord', 'table', '\t', 'parameter', 'solve', 'alias']


def piece(draw: Draw, kind: str, number: int) -> str:
    """A piece of a source with this error."""
    return draw.pick({'source': SOURCE, 'compile': COMPILE, 'execution': EXECUTION}[kind][number])


def among(draw: Draw, text: str, added: str) -> str:
    """The source with a piece between two of its statements, or at its end."""
    places = [it.end() for it in re.finditer(r';[ ]*\n', text)]
    if draw.chance(0.5) or not places:
        return text.rstrip() + ('' if text.rstrip().endswith(';') else ';') + '\n' + added
    place = draw.pick(places)
    return text[:place] + added.rstrip() + '\n' + text[place:]


def changed(draw: Draw, text: str) -> str:
    """The source with one to three tokens, names or lines changed."""
    for _ in range(draw.weighted((6, 1), (2, 2), (1, 3))):
        text = draw.call((7, lambda: token_changed(draw, text)), (5, lambda: name_changed(draw, text)),
                         (2, lambda: line_changed(draw, text)), (1, lambda: byte_changed(draw, text)))
    return text


def name_changed(draw: Draw, text: str) -> str:
    """One name, label or function in place of another one: of the wrong kind, dimension or domain.
    """
    tokens = TOKEN.findall(text)
    places = [it for it, token in enumerate(tokens) if token[0].isalpha() and token.lower() not in KEYWORDS]
    if places:
        tokens[draw.pick(places)] = tokens[draw.pick(places)]
    return ''.join(tokens)


def token_changed(draw: Draw, text: str) -> str:
    """One token left out, written twice, exchanged with another or with a spare one, or a spare one
    put before it.
    """
    tokens = TOKEN.findall(text)
    if not tokens:
        return text
    places = [it for it, token in enumerate(tokens) if not token.isspace()] or [0]
    place, other = draw.pick(places), draw.pick(places)
    way = draw.between(0, 5)
    if way == 0:
        tokens[place] = ''
    elif way == 1:
        tokens[place] += draw.pick(['', ' ']) + tokens[place]
    elif way == 2:
        tokens[place], tokens[other] = tokens[other], tokens[place]
    elif way == 3:
        tokens[place] = tokens[other]
    elif way == 4:
        tokens[place] = draw.pick(SPARE)
    else:
        tokens[place] = draw.pick(SPARE) + draw.pick(['', ' ']) + tokens[place]
    return ''.join(tokens)


def line_changed(draw: Draw, text: str) -> str:
    """One line left out, written twice, moved, or joined with the next one."""
    lines = text.split('\n')
    place, way = draw.between(0, len(lines) - 1), draw.between(0, 3)
    if way == 0:
        del lines[place]
    elif way == 1:
        lines.insert(place, lines[place])
    elif way == 2:
        lines.insert(draw.between(0, len(lines) - 1), lines.pop(place))
    elif place + 1 < len(lines):
        lines[place:place + 2] = [lines[place] + lines[place + 1]]
    return '\n'.join(lines)


def byte_changed(draw: Draw, text: str) -> str:
    """One character left out, put in, or changed, or the rest left out."""
    place = draw.between(0, len(text))
    spare = draw.pick(list('()*/$.,;"\'=+- \t\n\r0a?&_\xe9\x01'))
    way = draw.between(0, 3)
    return text[:place] + (['', spare, spare, ''][way]) + ('' if way == 3 else text[place + (way != 1):])
