% A metagrammar of English verbs, nouns and what stands beside them, in the manner of XMG's grammars
% of French and English. It shows every construct of a metagrammar in use.
%
% A verb has a spine of black nodes. The classes of its arguments say in white how they hang on that
% spine, and in red what they add. A family puts the classes of a verb together.

type CAT = { s, vp, v, np, n, pp, p, ap, a, adv, det, c, conj, punct }
type CASE = { nom, acc, gen }
type NUMBER = { sg, pl }
type MODE = { ind, inf, ger, ppart, imp }
type INDEX !
property mark : MARK
feature cat : CAT
feature case : CASE
feature num : NUMBER
feature mode : MODE
feature idx : INDEX
use color with () dims (syn)
use rank with (order=fixed, strict) dims (syn)

% ---- Spines of verbs

% The spine that all full verbs share.

class VerbSpine
export ?s ?vp ?v ?e ?p ?l
declare ?s ?vp ?v ?m ?b ?n ?e ?p ?l
{
  <syn>{
    node ?s (color=black) [cat=s, bot=[mode=?m]] {
      node ?vp (color=black) [cat=vp, top=[mode=?m], bot=[mode=?b, num=?n]] {
        node ?v (color=black, mark=anchor) [cat=v, top=[mode=?b, num=?n]]
      }
    }
  };
  <iface>{ [e=?e, mode=?m] };
  <sem>{ ?l:?p(?e) }
}

class FiniteVerb
import VerbSpine[]
export ?s ?vp ?v ?e
{
  <syn>{ node ?v [cat=v, bot=[mode=ind]] }
}

class InfinitiveVerb
import VerbSpine[]
export ?s ?vp ?v ?e
declare ?to
{
  <syn>{
    node ?vp [cat=vp] {
      node ?to (color=red, mark=lex) [cat=to]
      ,,, node ?v [cat=v, bot=[mode=inf]]
    }
  }
}

class GerundVerb
import VerbSpine[]
export ?s ?vp ?v ?e
{
  <syn>{ node ?v [cat=v, bot=[mode=ger]] }
}

class PassiveVerb
import VerbSpine[]
export ?s ?vp ?v ?e
declare ?be
{
  <syn>{
    node ?vp [cat=vp] {
      node ?be (color=red, mark=coanchor, name=be) [cat=v, bot=[mode=ind]]
      ,,, node ?v [cat=v, bot=[mode=ppart]]
    }
  }
}

class ActiveVerb
{
  FiniteVerb[] | InfinitiveVerb[] | GerundVerb[]
}

% ---- Noun phrases as arguments

% The subject before the verb phrase.

class CanonicalSubject
export ?np ?x
declare ?s ?np ?vp ?x ?n
{
  <syn>{
    node ?s [cat=s] {
      node ?np (color=red, mark=subst) [cat=np, top=[idx=?x, num=?n, case=nom]]
      node ?vp [cat=vp, bot=[num=?n]]
    }
  };
  <iface>{ [arg0=?x] }
}

class WhSubject
export ?np ?x
declare ?top ?s ?np ?x
{
  <syn>{
    node ?top (color=red) [cat=s, bot=[wh=plus]] {
      node ?np (color=red, mark=subst) [cat=np, top=[idx=?x, wh=plus, case=nom]]
      node ?s [cat=s]
    }
  };
  <iface>{ [arg0=?x] }
}

class RelativeSubject
export ?x
declare ?root ?head ?bar ?that ?s ?x
{
  <syn>{
    node ?root (color=red) [cat=np, bot=[idx=?x]] {
      node ?head (color=red, mark=foot) [cat=np, top=[idx=?x]]
      node ?bar (color=red) [cat=s] {
        node ?that (color=red, mark=lex) [cat=that]
        node ?s [cat=s]
      }
    }
  };
  <iface>{ [arg0=?x] }
}

class InvertedSubject
export ?np ?x
declare ?s ?aux ?np ?vp ?x ?n
{
  <syn>{
    node ?s [cat=s, bot=[inv=plus]] {
      node ?aux (color=red, mark=coanchor, name=aux) [cat=v, bot=[num=?n]]
      node ?np (color=red, mark=subst) [cat=np, top=[idx=?x, num=?n, case=nom]]
      node ?vp [cat=vp]
    }
  };
  <iface>{ [arg0=?x] }
}

class ImperativeSubject
declare ?s
{
  <syn>{ node ?s [cat=s, bot=[mode=imp]] };
  <iface>{ [arg0=you] };
  <sem>{ addressee(you) }
}

class ControlledSubject
export ?x
declare ?s ?x
{
  <syn>{ node ?s [cat=s, top=[control=?x]] };
  <iface>{ [arg0=?x] }
}

class Subject
{
  CanonicalSubject[] | WhSubject[] | RelativeSubject[] | InvertedSubject[] | ImperativeSubject[] | ControlledSubject[]
}

class CanonicalObject
export ?np ?x
declare ?vp ?v ?np ?x
{
  <syn>{
    node ?vp [cat=vp] {
      node ?v [cat=v]
      node ?np (color=red, mark=subst) [cat=np, top=[idx=?x, case=acc]]
    }
  };
  <iface>{ [arg1=?x] }
}

class WhObject
export ?np ?x
declare ?top ?np ?s ?x
{
  <syn>{
    node ?top (color=red) [cat=s, bot=[wh=plus]] {
      node ?np (color=red, mark=subst) [cat=np, top=[idx=?x, wh=plus, case=acc]]
      node ?s [cat=s, top=[inv=plus]]
    }
  };
  <iface>{ [arg1=?x] }
}

class RelativeObject
export ?x
declare ?root ?head ?s ?x
{
  <syn>{
    node ?root (color=red) [cat=np, bot=[idx=?x]] {
      node ?head (color=red, mark=foot) [cat=np, top=[idx=?x]]
      node ?s [cat=s]
    }
  };
  <iface>{ [arg1=?x] }
}

class ReflexiveObject
export ?x
declare ?vp ?v ?self ?x
{
  <syn>{
    node ?vp [cat=vp] {
      node ?v [cat=v]
      node ?self (color=red, mark=lex) [cat=self]
    }
  };
  <iface>{ [arg0=?x, arg1=?x] }
}

class Object
{
  CanonicalObject[] | WhObject[] | RelativeObject[] | ReflexiveObject[]
}

class CanonicalSecondObject
export ?np ?x
declare ?vp ?v ?np ?x
{
  <syn>{
    node ?vp [cat=vp] {
      node ?v [cat=v]
      ,,, node ?np (color=red, mark=subst) [cat=np, top=[idx=?x, case=acc]]
    }
  };
  <iface>{ [arg2=?x] }
}

class WhSecondObject
export ?np ?x
declare ?top ?np ?s ?x
{
  <syn>{
    node ?top (color=red) [cat=s, bot=[wh=plus]] {
      node ?np (color=red, mark=subst) [cat=np, top=[idx=?x, wh=plus, case=acc]]
      node ?s [cat=s, top=[inv=plus]]
    }
  };
  <iface>{ [arg2=?x] }
}

class RelativeSecondObject
export ?x
declare ?root ?head ?s ?x
{
  <syn>{
    node ?root (color=red) [cat=np, bot=[idx=?x]] {
      node ?head (color=red, mark=foot) [cat=np, top=[idx=?x]]
      node ?s [cat=s]
    }
  };
  <iface>{ [arg2=?x] }
}

class ReflexiveSecondObject
export ?x
declare ?vp ?v ?self ?x
{
  <syn>{
    node ?vp [cat=vp] {
      node ?v [cat=v]
      node ?self (color=red, mark=lex) [cat=self]
    }
  };
  <iface>{ [arg0=?x, arg2=?x] }
}

class SecondObject
{
  CanonicalSecondObject[] | WhSecondObject[] | RelativeSecondObject[] | ReflexiveSecondObject[]
}

% The second argument as the subject of a passive.

class PassiveSubject
export ?y
declare ?subject ?y
{
  ?subject = CanonicalSubject[];
  ?subject.?x = ?y;
  <iface>{ [arg1=?y] }
}

class ByAgent
export ?x
declare ?vp ?v ?pp ?p ?np ?x
{
  <syn>{
    node ?vp [cat=vp] {
      node ?v [cat=v]
      ,,, node ?pp (color=red) [cat=pp] {
        node ?p (color=red, mark=lex) [cat=by]
        node ?np (color=red, mark=subst) [cat=np, top=[idx=?x, case=acc]]
      }
    }
  };
  <iface>{ [arg0=?x] }
}

class NoAgent
export ?x
declare ?x
{
  <iface>{ [arg0=?x] };
  <sem>{ someone(?x) }
}

% ---- Arguments with a preposition

class CanonicalAbout
export ?pp ?np ?x
declare ?vp ?v ?pp ?p ?np ?x
{
  <syn>{
    node ?vp [cat=vp] {
      node ?v [cat=v]
      ,,, node ?pp (color=red) [cat=pp] {
        node ?p (color=red, mark=lex) [cat=about]
        node ?np (color=red, mark=subst) [cat=np, top=[idx=?x, case=acc]]
      }
    }
  };
  <iface>{ [about=?x] }
}

class WhAbout
export ?x
declare ?top ?pp ?p ?np ?s ?x
{
  <syn>{
    node ?top (color=red) [cat=s, bot=[wh=plus]] {
      node ?pp (color=red) [cat=pp] {
        node ?p (color=red, mark=lex) [cat=about]
        node ?np (color=red, mark=subst) [cat=np, top=[idx=?x, wh=plus]]
      }
      node ?s [cat=s, top=[inv=plus]]
    }
  };
  <iface>{ [about=?x] }
}

class AboutArgument
{
  CanonicalAbout[] | WhAbout[]
}

class CanonicalAbove
export ?pp ?np ?x
declare ?vp ?v ?pp ?p ?np ?x
{
  <syn>{
    node ?vp [cat=vp] {
      node ?v [cat=v]
      ,,, node ?pp (color=red) [cat=pp] {
        node ?p (color=red, mark=lex) [cat=above]
        node ?np (color=red, mark=subst) [cat=np, top=[idx=?x, case=acc]]
      }
    }
  };
  <iface>{ [above=?x] }
}

class WhAbove
export ?x
declare ?top ?pp ?p ?np ?s ?x
{
  <syn>{
    node ?top (color=red) [cat=s, bot=[wh=plus]] {
      node ?pp (color=red) [cat=pp] {
        node ?p (color=red, mark=lex) [cat=above]
        node ?np (color=red, mark=subst) [cat=np, top=[idx=?x, wh=plus]]
      }
      node ?s [cat=s, top=[inv=plus]]
    }
  };
  <iface>{ [above=?x] }
}

class AboveArgument
{
  CanonicalAbove[] | WhAbove[]
}

class CanonicalAcross
export ?pp ?np ?x
declare ?vp ?v ?pp ?p ?np ?x
{
  <syn>{
    node ?vp [cat=vp] {
      node ?v [cat=v]
      ,,, node ?pp (color=red) [cat=pp] {
        node ?p (color=red, mark=lex) [cat=across]
        node ?np (color=red, mark=subst) [cat=np, top=[idx=?x, case=acc]]
      }
    }
  };
  <iface>{ [across=?x] }
}

class WhAcross
export ?x
declare ?top ?pp ?p ?np ?s ?x
{
  <syn>{
    node ?top (color=red) [cat=s, bot=[wh=plus]] {
      node ?pp (color=red) [cat=pp] {
        node ?p (color=red, mark=lex) [cat=across]
        node ?np (color=red, mark=subst) [cat=np, top=[idx=?x, wh=plus]]
      }
      node ?s [cat=s, top=[inv=plus]]
    }
  };
  <iface>{ [across=?x] }
}

class AcrossArgument
{
  CanonicalAcross[] | WhAcross[]
}

class CanonicalAfter
export ?pp ?np ?x
declare ?vp ?v ?pp ?p ?np ?x
{
  <syn>{
    node ?vp [cat=vp] {
      node ?v [cat=v]
      ,,, node ?pp (color=red) [cat=pp] {
        node ?p (color=red, mark=lex) [cat=after]
        node ?np (color=red, mark=subst) [cat=np, top=[idx=?x, case=acc]]
      }
    }
  };
  <iface>{ [after=?x] }
}

class WhAfter
export ?x
declare ?top ?pp ?p ?np ?s ?x
{
  <syn>{
    node ?top (color=red) [cat=s, bot=[wh=plus]] {
      node ?pp (color=red) [cat=pp] {
        node ?p (color=red, mark=lex) [cat=after]
        node ?np (color=red, mark=subst) [cat=np, top=[idx=?x, wh=plus]]
      }
      node ?s [cat=s, top=[inv=plus]]
    }
  };
  <iface>{ [after=?x] }
}

class AfterArgument
{
  CanonicalAfter[] | WhAfter[]
}

class CanonicalAgainst
export ?pp ?np ?x
declare ?vp ?v ?pp ?p ?np ?x
{
  <syn>{
    node ?vp [cat=vp] {
      node ?v [cat=v]
      ,,, node ?pp (color=red) [cat=pp] {
        node ?p (color=red, mark=lex) [cat=against]
        node ?np (color=red, mark=subst) [cat=np, top=[idx=?x, case=acc]]
      }
    }
  };
  <iface>{ [against=?x] }
}

class WhAgainst
export ?x
declare ?top ?pp ?p ?np ?s ?x
{
  <syn>{
    node ?top (color=red) [cat=s, bot=[wh=plus]] {
      node ?pp (color=red) [cat=pp] {
        node ?p (color=red, mark=lex) [cat=against]
        node ?np (color=red, mark=subst) [cat=np, top=[idx=?x, wh=plus]]
      }
      node ?s [cat=s, top=[inv=plus]]
    }
  };
  <iface>{ [against=?x] }
}

class AgainstArgument
{
  CanonicalAgainst[] | WhAgainst[]
}

class CanonicalAlong
export ?pp ?np ?x
declare ?vp ?v ?pp ?p ?np ?x
{
  <syn>{
    node ?vp [cat=vp] {
      node ?v [cat=v]
      ,,, node ?pp (color=red) [cat=pp] {
        node ?p (color=red, mark=lex) [cat=along]
        node ?np (color=red, mark=subst) [cat=np, top=[idx=?x, case=acc]]
      }
    }
  };
  <iface>{ [along=?x] }
}

class WhAlong
export ?x
declare ?top ?pp ?p ?np ?s ?x
{
  <syn>{
    node ?top (color=red) [cat=s, bot=[wh=plus]] {
      node ?pp (color=red) [cat=pp] {
        node ?p (color=red, mark=lex) [cat=along]
        node ?np (color=red, mark=subst) [cat=np, top=[idx=?x, wh=plus]]
      }
      node ?s [cat=s, top=[inv=plus]]
    }
  };
  <iface>{ [along=?x] }
}

class AlongArgument
{
  CanonicalAlong[] | WhAlong[]
}

class CanonicalAmong
export ?pp ?np ?x
declare ?vp ?v ?pp ?p ?np ?x
{
  <syn>{
    node ?vp [cat=vp] {
      node ?v [cat=v]
      ,,, node ?pp (color=red) [cat=pp] {
        node ?p (color=red, mark=lex) [cat=among]
        node ?np (color=red, mark=subst) [cat=np, top=[idx=?x, case=acc]]
      }
    }
  };
  <iface>{ [among=?x] }
}

class WhAmong
export ?x
declare ?top ?pp ?p ?np ?s ?x
{
  <syn>{
    node ?top (color=red) [cat=s, bot=[wh=plus]] {
      node ?pp (color=red) [cat=pp] {
        node ?p (color=red, mark=lex) [cat=among]
        node ?np (color=red, mark=subst) [cat=np, top=[idx=?x, wh=plus]]
      }
      node ?s [cat=s, top=[inv=plus]]
    }
  };
  <iface>{ [among=?x] }
}

class AmongArgument
{
  CanonicalAmong[] | WhAmong[]
}

class CanonicalAround
export ?pp ?np ?x
declare ?vp ?v ?pp ?p ?np ?x
{
  <syn>{
    node ?vp [cat=vp] {
      node ?v [cat=v]
      ,,, node ?pp (color=red) [cat=pp] {
        node ?p (color=red, mark=lex) [cat=around]
        node ?np (color=red, mark=subst) [cat=np, top=[idx=?x, case=acc]]
      }
    }
  };
  <iface>{ [around=?x] }
}

class WhAround
export ?x
declare ?top ?pp ?p ?np ?s ?x
{
  <syn>{
    node ?top (color=red) [cat=s, bot=[wh=plus]] {
      node ?pp (color=red) [cat=pp] {
        node ?p (color=red, mark=lex) [cat=around]
        node ?np (color=red, mark=subst) [cat=np, top=[idx=?x, wh=plus]]
      }
      node ?s [cat=s, top=[inv=plus]]
    }
  };
  <iface>{ [around=?x] }
}

class AroundArgument
{
  CanonicalAround[] | WhAround[]
}

class CanonicalAs
export ?pp ?np ?x
declare ?vp ?v ?pp ?p ?np ?x
{
  <syn>{
    node ?vp [cat=vp] {
      node ?v [cat=v]
      ,,, node ?pp (color=red) [cat=pp] {
        node ?p (color=red, mark=lex) [cat=as]
        node ?np (color=red, mark=subst) [cat=np, top=[idx=?x, case=acc]]
      }
    }
  };
  <iface>{ [as=?x] }
}

class WhAs
export ?x
declare ?top ?pp ?p ?np ?s ?x
{
  <syn>{
    node ?top (color=red) [cat=s, bot=[wh=plus]] {
      node ?pp (color=red) [cat=pp] {
        node ?p (color=red, mark=lex) [cat=as]
        node ?np (color=red, mark=subst) [cat=np, top=[idx=?x, wh=plus]]
      }
      node ?s [cat=s, top=[inv=plus]]
    }
  };
  <iface>{ [as=?x] }
}

class AsArgument
{
  CanonicalAs[] | WhAs[]
}

class CanonicalAt
export ?pp ?np ?x
declare ?vp ?v ?pp ?p ?np ?x
{
  <syn>{
    node ?vp [cat=vp] {
      node ?v [cat=v]
      ,,, node ?pp (color=red) [cat=pp] {
        node ?p (color=red, mark=lex) [cat=at]
        node ?np (color=red, mark=subst) [cat=np, top=[idx=?x, case=acc]]
      }
    }
  };
  <iface>{ [at=?x] }
}

class WhAt
export ?x
declare ?top ?pp ?p ?np ?s ?x
{
  <syn>{
    node ?top (color=red) [cat=s, bot=[wh=plus]] {
      node ?pp (color=red) [cat=pp] {
        node ?p (color=red, mark=lex) [cat=at]
        node ?np (color=red, mark=subst) [cat=np, top=[idx=?x, wh=plus]]
      }
      node ?s [cat=s, top=[inv=plus]]
    }
  };
  <iface>{ [at=?x] }
}

class AtArgument
{
  CanonicalAt[] | WhAt[]
}

class CanonicalBefore
export ?pp ?np ?x
declare ?vp ?v ?pp ?p ?np ?x
{
  <syn>{
    node ?vp [cat=vp] {
      node ?v [cat=v]
      ,,, node ?pp (color=red) [cat=pp] {
        node ?p (color=red, mark=lex) [cat=before]
        node ?np (color=red, mark=subst) [cat=np, top=[idx=?x, case=acc]]
      }
    }
  };
  <iface>{ [before=?x] }
}

class WhBefore
export ?x
declare ?top ?pp ?p ?np ?s ?x
{
  <syn>{
    node ?top (color=red) [cat=s, bot=[wh=plus]] {
      node ?pp (color=red) [cat=pp] {
        node ?p (color=red, mark=lex) [cat=before]
        node ?np (color=red, mark=subst) [cat=np, top=[idx=?x, wh=plus]]
      }
      node ?s [cat=s, top=[inv=plus]]
    }
  };
  <iface>{ [before=?x] }
}

class BeforeArgument
{
  CanonicalBefore[] | WhBefore[]
}

class CanonicalBehind
export ?pp ?np ?x
declare ?vp ?v ?pp ?p ?np ?x
{
  <syn>{
    node ?vp [cat=vp] {
      node ?v [cat=v]
      ,,, node ?pp (color=red) [cat=pp] {
        node ?p (color=red, mark=lex) [cat=behind]
        node ?np (color=red, mark=subst) [cat=np, top=[idx=?x, case=acc]]
      }
    }
  };
  <iface>{ [behind=?x] }
}

class WhBehind
export ?x
declare ?top ?pp ?p ?np ?s ?x
{
  <syn>{
    node ?top (color=red) [cat=s, bot=[wh=plus]] {
      node ?pp (color=red) [cat=pp] {
        node ?p (color=red, mark=lex) [cat=behind]
        node ?np (color=red, mark=subst) [cat=np, top=[idx=?x, wh=plus]]
      }
      node ?s [cat=s, top=[inv=plus]]
    }
  };
  <iface>{ [behind=?x] }
}

class BehindArgument
{
  CanonicalBehind[] | WhBehind[]
}

class CanonicalBelow
export ?pp ?np ?x
declare ?vp ?v ?pp ?p ?np ?x
{
  <syn>{
    node ?vp [cat=vp] {
      node ?v [cat=v]
      ,,, node ?pp (color=red) [cat=pp] {
        node ?p (color=red, mark=lex) [cat=below]
        node ?np (color=red, mark=subst) [cat=np, top=[idx=?x, case=acc]]
      }
    }
  };
  <iface>{ [below=?x] }
}

class WhBelow
export ?x
declare ?top ?pp ?p ?np ?s ?x
{
  <syn>{
    node ?top (color=red) [cat=s, bot=[wh=plus]] {
      node ?pp (color=red) [cat=pp] {
        node ?p (color=red, mark=lex) [cat=below]
        node ?np (color=red, mark=subst) [cat=np, top=[idx=?x, wh=plus]]
      }
      node ?s [cat=s, top=[inv=plus]]
    }
  };
  <iface>{ [below=?x] }
}

class BelowArgument
{
  CanonicalBelow[] | WhBelow[]
}

class CanonicalBeneath
export ?pp ?np ?x
declare ?vp ?v ?pp ?p ?np ?x
{
  <syn>{
    node ?vp [cat=vp] {
      node ?v [cat=v]
      ,,, node ?pp (color=red) [cat=pp] {
        node ?p (color=red, mark=lex) [cat=beneath]
        node ?np (color=red, mark=subst) [cat=np, top=[idx=?x, case=acc]]
      }
    }
  };
  <iface>{ [beneath=?x] }
}

class WhBeneath
export ?x
declare ?top ?pp ?p ?np ?s ?x
{
  <syn>{
    node ?top (color=red) [cat=s, bot=[wh=plus]] {
      node ?pp (color=red) [cat=pp] {
        node ?p (color=red, mark=lex) [cat=beneath]
        node ?np (color=red, mark=subst) [cat=np, top=[idx=?x, wh=plus]]
      }
      node ?s [cat=s, top=[inv=plus]]
    }
  };
  <iface>{ [beneath=?x] }
}

class BeneathArgument
{
  CanonicalBeneath[] | WhBeneath[]
}

class CanonicalBeside
export ?pp ?np ?x
declare ?vp ?v ?pp ?p ?np ?x
{
  <syn>{
    node ?vp [cat=vp] {
      node ?v [cat=v]
      ,,, node ?pp (color=red) [cat=pp] {
        node ?p (color=red, mark=lex) [cat=beside]
        node ?np (color=red, mark=subst) [cat=np, top=[idx=?x, case=acc]]
      }
    }
  };
  <iface>{ [beside=?x] }
}

class WhBeside
export ?x
declare ?top ?pp ?p ?np ?s ?x
{
  <syn>{
    node ?top (color=red) [cat=s, bot=[wh=plus]] {
      node ?pp (color=red) [cat=pp] {
        node ?p (color=red, mark=lex) [cat=beside]
        node ?np (color=red, mark=subst) [cat=np, top=[idx=?x, wh=plus]]
      }
      node ?s [cat=s, top=[inv=plus]]
    }
  };
  <iface>{ [beside=?x] }
}

class BesideArgument
{
  CanonicalBeside[] | WhBeside[]
}

class CanonicalBetween
export ?pp ?np ?x
declare ?vp ?v ?pp ?p ?np ?x
{
  <syn>{
    node ?vp [cat=vp] {
      node ?v [cat=v]
      ,,, node ?pp (color=red) [cat=pp] {
        node ?p (color=red, mark=lex) [cat=between]
        node ?np (color=red, mark=subst) [cat=np, top=[idx=?x, case=acc]]
      }
    }
  };
  <iface>{ [between=?x] }
}

class WhBetween
export ?x
declare ?top ?pp ?p ?np ?s ?x
{
  <syn>{
    node ?top (color=red) [cat=s, bot=[wh=plus]] {
      node ?pp (color=red) [cat=pp] {
        node ?p (color=red, mark=lex) [cat=between]
        node ?np (color=red, mark=subst) [cat=np, top=[idx=?x, wh=plus]]
      }
      node ?s [cat=s, top=[inv=plus]]
    }
  };
  <iface>{ [between=?x] }
}

class BetweenArgument
{
  CanonicalBetween[] | WhBetween[]
}

class CanonicalBeyond
export ?pp ?np ?x
declare ?vp ?v ?pp ?p ?np ?x
{
  <syn>{
    node ?vp [cat=vp] {
      node ?v [cat=v]
      ,,, node ?pp (color=red) [cat=pp] {
        node ?p (color=red, mark=lex) [cat=beyond]
        node ?np (color=red, mark=subst) [cat=np, top=[idx=?x, case=acc]]
      }
    }
  };
  <iface>{ [beyond=?x] }
}

class WhBeyond
export ?x
declare ?top ?pp ?p ?np ?s ?x
{
  <syn>{
    node ?top (color=red) [cat=s, bot=[wh=plus]] {
      node ?pp (color=red) [cat=pp] {
        node ?p (color=red, mark=lex) [cat=beyond]
        node ?np (color=red, mark=subst) [cat=np, top=[idx=?x, wh=plus]]
      }
      node ?s [cat=s, top=[inv=plus]]
    }
  };
  <iface>{ [beyond=?x] }
}

class BeyondArgument
{
  CanonicalBeyond[] | WhBeyond[]
}

class CanonicalBy
export ?pp ?np ?x
declare ?vp ?v ?pp ?p ?np ?x
{
  <syn>{
    node ?vp [cat=vp] {
      node ?v [cat=v]
      ,,, node ?pp (color=red) [cat=pp] {
        node ?p (color=red, mark=lex) [cat=by]
        node ?np (color=red, mark=subst) [cat=np, top=[idx=?x, case=acc]]
      }
    }
  };
  <iface>{ [by=?x] }
}

class WhBy
export ?x
declare ?top ?pp ?p ?np ?s ?x
{
  <syn>{
    node ?top (color=red) [cat=s, bot=[wh=plus]] {
      node ?pp (color=red) [cat=pp] {
        node ?p (color=red, mark=lex) [cat=by]
        node ?np (color=red, mark=subst) [cat=np, top=[idx=?x, wh=plus]]
      }
      node ?s [cat=s, top=[inv=plus]]
    }
  };
  <iface>{ [by=?x] }
}

class ByArgument
{
  CanonicalBy[] | WhBy[]
}

class CanonicalDown
export ?pp ?np ?x
declare ?vp ?v ?pp ?p ?np ?x
{
  <syn>{
    node ?vp [cat=vp] {
      node ?v [cat=v]
      ,,, node ?pp (color=red) [cat=pp] {
        node ?p (color=red, mark=lex) [cat=down]
        node ?np (color=red, mark=subst) [cat=np, top=[idx=?x, case=acc]]
      }
    }
  };
  <iface>{ [down=?x] }
}

class WhDown
export ?x
declare ?top ?pp ?p ?np ?s ?x
{
  <syn>{
    node ?top (color=red) [cat=s, bot=[wh=plus]] {
      node ?pp (color=red) [cat=pp] {
        node ?p (color=red, mark=lex) [cat=down]
        node ?np (color=red, mark=subst) [cat=np, top=[idx=?x, wh=plus]]
      }
      node ?s [cat=s, top=[inv=plus]]
    }
  };
  <iface>{ [down=?x] }
}

class DownArgument
{
  CanonicalDown[] | WhDown[]
}

class CanonicalDuring
export ?pp ?np ?x
declare ?vp ?v ?pp ?p ?np ?x
{
  <syn>{
    node ?vp [cat=vp] {
      node ?v [cat=v]
      ,,, node ?pp (color=red) [cat=pp] {
        node ?p (color=red, mark=lex) [cat=during]
        node ?np (color=red, mark=subst) [cat=np, top=[idx=?x, case=acc]]
      }
    }
  };
  <iface>{ [during=?x] }
}

class WhDuring
export ?x
declare ?top ?pp ?p ?np ?s ?x
{
  <syn>{
    node ?top (color=red) [cat=s, bot=[wh=plus]] {
      node ?pp (color=red) [cat=pp] {
        node ?p (color=red, mark=lex) [cat=during]
        node ?np (color=red, mark=subst) [cat=np, top=[idx=?x, wh=plus]]
      }
      node ?s [cat=s, top=[inv=plus]]
    }
  };
  <iface>{ [during=?x] }
}

class DuringArgument
{
  CanonicalDuring[] | WhDuring[]
}

class CanonicalFor
export ?pp ?np ?x
declare ?vp ?v ?pp ?p ?np ?x
{
  <syn>{
    node ?vp [cat=vp] {
      node ?v [cat=v]
      ,,, node ?pp (color=red) [cat=pp] {
        node ?p (color=red, mark=lex) [cat=for]
        node ?np (color=red, mark=subst) [cat=np, top=[idx=?x, case=acc]]
      }
    }
  };
  <iface>{ [for=?x] }
}

class WhFor
export ?x
declare ?top ?pp ?p ?np ?s ?x
{
  <syn>{
    node ?top (color=red) [cat=s, bot=[wh=plus]] {
      node ?pp (color=red) [cat=pp] {
        node ?p (color=red, mark=lex) [cat=for]
        node ?np (color=red, mark=subst) [cat=np, top=[idx=?x, wh=plus]]
      }
      node ?s [cat=s, top=[inv=plus]]
    }
  };
  <iface>{ [for=?x] }
}

class ForArgument
{
  CanonicalFor[] | WhFor[]
}

class CanonicalFrom
export ?pp ?np ?x
declare ?vp ?v ?pp ?p ?np ?x
{
  <syn>{
    node ?vp [cat=vp] {
      node ?v [cat=v]
      ,,, node ?pp (color=red) [cat=pp] {
        node ?p (color=red, mark=lex) [cat=from]
        node ?np (color=red, mark=subst) [cat=np, top=[idx=?x, case=acc]]
      }
    }
  };
  <iface>{ [from=?x] }
}

class WhFrom
export ?x
declare ?top ?pp ?p ?np ?s ?x
{
  <syn>{
    node ?top (color=red) [cat=s, bot=[wh=plus]] {
      node ?pp (color=red) [cat=pp] {
        node ?p (color=red, mark=lex) [cat=from]
        node ?np (color=red, mark=subst) [cat=np, top=[idx=?x, wh=plus]]
      }
      node ?s [cat=s, top=[inv=plus]]
    }
  };
  <iface>{ [from=?x] }
}

class FromArgument
{
  CanonicalFrom[] | WhFrom[]
}

class CanonicalIn
export ?pp ?np ?x
declare ?vp ?v ?pp ?p ?np ?x
{
  <syn>{
    node ?vp [cat=vp] {
      node ?v [cat=v]
      ,,, node ?pp (color=red) [cat=pp] {
        node ?p (color=red, mark=lex) [cat=in]
        node ?np (color=red, mark=subst) [cat=np, top=[idx=?x, case=acc]]
      }
    }
  };
  <iface>{ [in=?x] }
}

class WhIn
export ?x
declare ?top ?pp ?p ?np ?s ?x
{
  <syn>{
    node ?top (color=red) [cat=s, bot=[wh=plus]] {
      node ?pp (color=red) [cat=pp] {
        node ?p (color=red, mark=lex) [cat=in]
        node ?np (color=red, mark=subst) [cat=np, top=[idx=?x, wh=plus]]
      }
      node ?s [cat=s, top=[inv=plus]]
    }
  };
  <iface>{ [in=?x] }
}

class InArgument
{
  CanonicalIn[] | WhIn[]
}

class CanonicalInside
export ?pp ?np ?x
declare ?vp ?v ?pp ?p ?np ?x
{
  <syn>{
    node ?vp [cat=vp] {
      node ?v [cat=v]
      ,,, node ?pp (color=red) [cat=pp] {
        node ?p (color=red, mark=lex) [cat=inside]
        node ?np (color=red, mark=subst) [cat=np, top=[idx=?x, case=acc]]
      }
    }
  };
  <iface>{ [inside=?x] }
}

class WhInside
export ?x
declare ?top ?pp ?p ?np ?s ?x
{
  <syn>{
    node ?top (color=red) [cat=s, bot=[wh=plus]] {
      node ?pp (color=red) [cat=pp] {
        node ?p (color=red, mark=lex) [cat=inside]
        node ?np (color=red, mark=subst) [cat=np, top=[idx=?x, wh=plus]]
      }
      node ?s [cat=s, top=[inv=plus]]
    }
  };
  <iface>{ [inside=?x] }
}

class InsideArgument
{
  CanonicalInside[] | WhInside[]
}

class CanonicalInto
export ?pp ?np ?x
declare ?vp ?v ?pp ?p ?np ?x
{
  <syn>{
    node ?vp [cat=vp] {
      node ?v [cat=v]
      ,,, node ?pp (color=red) [cat=pp] {
        node ?p (color=red, mark=lex) [cat=into]
        node ?np (color=red, mark=subst) [cat=np, top=[idx=?x, case=acc]]
      }
    }
  };
  <iface>{ [into=?x] }
}

class WhInto
export ?x
declare ?top ?pp ?p ?np ?s ?x
{
  <syn>{
    node ?top (color=red) [cat=s, bot=[wh=plus]] {
      node ?pp (color=red) [cat=pp] {
        node ?p (color=red, mark=lex) [cat=into]
        node ?np (color=red, mark=subst) [cat=np, top=[idx=?x, wh=plus]]
      }
      node ?s [cat=s, top=[inv=plus]]
    }
  };
  <iface>{ [into=?x] }
}

class IntoArgument
{
  CanonicalInto[] | WhInto[]
}

class CanonicalNear
export ?pp ?np ?x
declare ?vp ?v ?pp ?p ?np ?x
{
  <syn>{
    node ?vp [cat=vp] {
      node ?v [cat=v]
      ,,, node ?pp (color=red) [cat=pp] {
        node ?p (color=red, mark=lex) [cat=near]
        node ?np (color=red, mark=subst) [cat=np, top=[idx=?x, case=acc]]
      }
    }
  };
  <iface>{ [near=?x] }
}

class WhNear
export ?x
declare ?top ?pp ?p ?np ?s ?x
{
  <syn>{
    node ?top (color=red) [cat=s, bot=[wh=plus]] {
      node ?pp (color=red) [cat=pp] {
        node ?p (color=red, mark=lex) [cat=near]
        node ?np (color=red, mark=subst) [cat=np, top=[idx=?x, wh=plus]]
      }
      node ?s [cat=s, top=[inv=plus]]
    }
  };
  <iface>{ [near=?x] }
}

class NearArgument
{
  CanonicalNear[] | WhNear[]
}

class CanonicalOf
export ?pp ?np ?x
declare ?vp ?v ?pp ?p ?np ?x
{
  <syn>{
    node ?vp [cat=vp] {
      node ?v [cat=v]
      ,,, node ?pp (color=red) [cat=pp] {
        node ?p (color=red, mark=lex) [cat=of]
        node ?np (color=red, mark=subst) [cat=np, top=[idx=?x, case=acc]]
      }
    }
  };
  <iface>{ [of=?x] }
}

class WhOf
export ?x
declare ?top ?pp ?p ?np ?s ?x
{
  <syn>{
    node ?top (color=red) [cat=s, bot=[wh=plus]] {
      node ?pp (color=red) [cat=pp] {
        node ?p (color=red, mark=lex) [cat=of]
        node ?np (color=red, mark=subst) [cat=np, top=[idx=?x, wh=plus]]
      }
      node ?s [cat=s, top=[inv=plus]]
    }
  };
  <iface>{ [of=?x] }
}

class OfArgument
{
  CanonicalOf[] | WhOf[]
}

class CanonicalOff
export ?pp ?np ?x
declare ?vp ?v ?pp ?p ?np ?x
{
  <syn>{
    node ?vp [cat=vp] {
      node ?v [cat=v]
      ,,, node ?pp (color=red) [cat=pp] {
        node ?p (color=red, mark=lex) [cat=off]
        node ?np (color=red, mark=subst) [cat=np, top=[idx=?x, case=acc]]
      }
    }
  };
  <iface>{ [off=?x] }
}

class WhOff
export ?x
declare ?top ?pp ?p ?np ?s ?x
{
  <syn>{
    node ?top (color=red) [cat=s, bot=[wh=plus]] {
      node ?pp (color=red) [cat=pp] {
        node ?p (color=red, mark=lex) [cat=off]
        node ?np (color=red, mark=subst) [cat=np, top=[idx=?x, wh=plus]]
      }
      node ?s [cat=s, top=[inv=plus]]
    }
  };
  <iface>{ [off=?x] }
}

class OffArgument
{
  CanonicalOff[] | WhOff[]
}

class CanonicalOn
export ?pp ?np ?x
declare ?vp ?v ?pp ?p ?np ?x
{
  <syn>{
    node ?vp [cat=vp] {
      node ?v [cat=v]
      ,,, node ?pp (color=red) [cat=pp] {
        node ?p (color=red, mark=lex) [cat=on]
        node ?np (color=red, mark=subst) [cat=np, top=[idx=?x, case=acc]]
      }
    }
  };
  <iface>{ [on=?x] }
}

class WhOn
export ?x
declare ?top ?pp ?p ?np ?s ?x
{
  <syn>{
    node ?top (color=red) [cat=s, bot=[wh=plus]] {
      node ?pp (color=red) [cat=pp] {
        node ?p (color=red, mark=lex) [cat=on]
        node ?np (color=red, mark=subst) [cat=np, top=[idx=?x, wh=plus]]
      }
      node ?s [cat=s, top=[inv=plus]]
    }
  };
  <iface>{ [on=?x] }
}

class OnArgument
{
  CanonicalOn[] | WhOn[]
}

class CanonicalOnto
export ?pp ?np ?x
declare ?vp ?v ?pp ?p ?np ?x
{
  <syn>{
    node ?vp [cat=vp] {
      node ?v [cat=v]
      ,,, node ?pp (color=red) [cat=pp] {
        node ?p (color=red, mark=lex) [cat=onto]
        node ?np (color=red, mark=subst) [cat=np, top=[idx=?x, case=acc]]
      }
    }
  };
  <iface>{ [onto=?x] }
}

class WhOnto
export ?x
declare ?top ?pp ?p ?np ?s ?x
{
  <syn>{
    node ?top (color=red) [cat=s, bot=[wh=plus]] {
      node ?pp (color=red) [cat=pp] {
        node ?p (color=red, mark=lex) [cat=onto]
        node ?np (color=red, mark=subst) [cat=np, top=[idx=?x, wh=plus]]
      }
      node ?s [cat=s, top=[inv=plus]]
    }
  };
  <iface>{ [onto=?x] }
}

class OntoArgument
{
  CanonicalOnto[] | WhOnto[]
}

class CanonicalOut
export ?pp ?np ?x
declare ?vp ?v ?pp ?p ?np ?x
{
  <syn>{
    node ?vp [cat=vp] {
      node ?v [cat=v]
      ,,, node ?pp (color=red) [cat=pp] {
        node ?p (color=red, mark=lex) [cat=out]
        node ?np (color=red, mark=subst) [cat=np, top=[idx=?x, case=acc]]
      }
    }
  };
  <iface>{ [out=?x] }
}

class WhOut
export ?x
declare ?top ?pp ?p ?np ?s ?x
{
  <syn>{
    node ?top (color=red) [cat=s, bot=[wh=plus]] {
      node ?pp (color=red) [cat=pp] {
        node ?p (color=red, mark=lex) [cat=out]
        node ?np (color=red, mark=subst) [cat=np, top=[idx=?x, wh=plus]]
      }
      node ?s [cat=s, top=[inv=plus]]
    }
  };
  <iface>{ [out=?x] }
}

class OutArgument
{
  CanonicalOut[] | WhOut[]
}

class CanonicalOver
export ?pp ?np ?x
declare ?vp ?v ?pp ?p ?np ?x
{
  <syn>{
    node ?vp [cat=vp] {
      node ?v [cat=v]
      ,,, node ?pp (color=red) [cat=pp] {
        node ?p (color=red, mark=lex) [cat=over]
        node ?np (color=red, mark=subst) [cat=np, top=[idx=?x, case=acc]]
      }
    }
  };
  <iface>{ [over=?x] }
}

class WhOver
export ?x
declare ?top ?pp ?p ?np ?s ?x
{
  <syn>{
    node ?top (color=red) [cat=s, bot=[wh=plus]] {
      node ?pp (color=red) [cat=pp] {
        node ?p (color=red, mark=lex) [cat=over]
        node ?np (color=red, mark=subst) [cat=np, top=[idx=?x, wh=plus]]
      }
      node ?s [cat=s, top=[inv=plus]]
    }
  };
  <iface>{ [over=?x] }
}

class OverArgument
{
  CanonicalOver[] | WhOver[]
}

class CanonicalPast
export ?pp ?np ?x
declare ?vp ?v ?pp ?p ?np ?x
{
  <syn>{
    node ?vp [cat=vp] {
      node ?v [cat=v]
      ,,, node ?pp (color=red) [cat=pp] {
        node ?p (color=red, mark=lex) [cat=past]
        node ?np (color=red, mark=subst) [cat=np, top=[idx=?x, case=acc]]
      }
    }
  };
  <iface>{ [past=?x] }
}

class WhPast
export ?x
declare ?top ?pp ?p ?np ?s ?x
{
  <syn>{
    node ?top (color=red) [cat=s, bot=[wh=plus]] {
      node ?pp (color=red) [cat=pp] {
        node ?p (color=red, mark=lex) [cat=past]
        node ?np (color=red, mark=subst) [cat=np, top=[idx=?x, wh=plus]]
      }
      node ?s [cat=s, top=[inv=plus]]
    }
  };
  <iface>{ [past=?x] }
}

class PastArgument
{
  CanonicalPast[] | WhPast[]
}

class CanonicalRound
export ?pp ?np ?x
declare ?vp ?v ?pp ?p ?np ?x
{
  <syn>{
    node ?vp [cat=vp] {
      node ?v [cat=v]
      ,,, node ?pp (color=red) [cat=pp] {
        node ?p (color=red, mark=lex) [cat=round]
        node ?np (color=red, mark=subst) [cat=np, top=[idx=?x, case=acc]]
      }
    }
  };
  <iface>{ [round=?x] }
}

class WhRound
export ?x
declare ?top ?pp ?p ?np ?s ?x
{
  <syn>{
    node ?top (color=red) [cat=s, bot=[wh=plus]] {
      node ?pp (color=red) [cat=pp] {
        node ?p (color=red, mark=lex) [cat=round]
        node ?np (color=red, mark=subst) [cat=np, top=[idx=?x, wh=plus]]
      }
      node ?s [cat=s, top=[inv=plus]]
    }
  };
  <iface>{ [round=?x] }
}

class RoundArgument
{
  CanonicalRound[] | WhRound[]
}

class CanonicalSince
export ?pp ?np ?x
declare ?vp ?v ?pp ?p ?np ?x
{
  <syn>{
    node ?vp [cat=vp] {
      node ?v [cat=v]
      ,,, node ?pp (color=red) [cat=pp] {
        node ?p (color=red, mark=lex) [cat=since]
        node ?np (color=red, mark=subst) [cat=np, top=[idx=?x, case=acc]]
      }
    }
  };
  <iface>{ [since=?x] }
}

class WhSince
export ?x
declare ?top ?pp ?p ?np ?s ?x
{
  <syn>{
    node ?top (color=red) [cat=s, bot=[wh=plus]] {
      node ?pp (color=red) [cat=pp] {
        node ?p (color=red, mark=lex) [cat=since]
        node ?np (color=red, mark=subst) [cat=np, top=[idx=?x, wh=plus]]
      }
      node ?s [cat=s, top=[inv=plus]]
    }
  };
  <iface>{ [since=?x] }
}

class SinceArgument
{
  CanonicalSince[] | WhSince[]
}

class CanonicalThrough
export ?pp ?np ?x
declare ?vp ?v ?pp ?p ?np ?x
{
  <syn>{
    node ?vp [cat=vp] {
      node ?v [cat=v]
      ,,, node ?pp (color=red) [cat=pp] {
        node ?p (color=red, mark=lex) [cat=through]
        node ?np (color=red, mark=subst) [cat=np, top=[idx=?x, case=acc]]
      }
    }
  };
  <iface>{ [through=?x] }
}

class WhThrough
export ?x
declare ?top ?pp ?p ?np ?s ?x
{
  <syn>{
    node ?top (color=red) [cat=s, bot=[wh=plus]] {
      node ?pp (color=red) [cat=pp] {
        node ?p (color=red, mark=lex) [cat=through]
        node ?np (color=red, mark=subst) [cat=np, top=[idx=?x, wh=plus]]
      }
      node ?s [cat=s, top=[inv=plus]]
    }
  };
  <iface>{ [through=?x] }
}

class ThroughArgument
{
  CanonicalThrough[] | WhThrough[]
}

class CanonicalTo
export ?pp ?np ?x
declare ?vp ?v ?pp ?p ?np ?x
{
  <syn>{
    node ?vp [cat=vp] {
      node ?v [cat=v]
      ,,, node ?pp (color=red) [cat=pp] {
        node ?p (color=red, mark=lex) [cat=to]
        node ?np (color=red, mark=subst) [cat=np, top=[idx=?x, case=acc]]
      }
    }
  };
  <iface>{ [to=?x] }
}

class WhTo
export ?x
declare ?top ?pp ?p ?np ?s ?x
{
  <syn>{
    node ?top (color=red) [cat=s, bot=[wh=plus]] {
      node ?pp (color=red) [cat=pp] {
        node ?p (color=red, mark=lex) [cat=to]
        node ?np (color=red, mark=subst) [cat=np, top=[idx=?x, wh=plus]]
      }
      node ?s [cat=s, top=[inv=plus]]
    }
  };
  <iface>{ [to=?x] }
}

class ToArgument
{
  CanonicalTo[] | WhTo[]
}

class CanonicalToward
export ?pp ?np ?x
declare ?vp ?v ?pp ?p ?np ?x
{
  <syn>{
    node ?vp [cat=vp] {
      node ?v [cat=v]
      ,,, node ?pp (color=red) [cat=pp] {
        node ?p (color=red, mark=lex) [cat=toward]
        node ?np (color=red, mark=subst) [cat=np, top=[idx=?x, case=acc]]
      }
    }
  };
  <iface>{ [toward=?x] }
}

class WhToward
export ?x
declare ?top ?pp ?p ?np ?s ?x
{
  <syn>{
    node ?top (color=red) [cat=s, bot=[wh=plus]] {
      node ?pp (color=red) [cat=pp] {
        node ?p (color=red, mark=lex) [cat=toward]
        node ?np (color=red, mark=subst) [cat=np, top=[idx=?x, wh=plus]]
      }
      node ?s [cat=s, top=[inv=plus]]
    }
  };
  <iface>{ [toward=?x] }
}

class TowardArgument
{
  CanonicalToward[] | WhToward[]
}

class CanonicalUnder
export ?pp ?np ?x
declare ?vp ?v ?pp ?p ?np ?x
{
  <syn>{
    node ?vp [cat=vp] {
      node ?v [cat=v]
      ,,, node ?pp (color=red) [cat=pp] {
        node ?p (color=red, mark=lex) [cat=under]
        node ?np (color=red, mark=subst) [cat=np, top=[idx=?x, case=acc]]
      }
    }
  };
  <iface>{ [under=?x] }
}

class WhUnder
export ?x
declare ?top ?pp ?p ?np ?s ?x
{
  <syn>{
    node ?top (color=red) [cat=s, bot=[wh=plus]] {
      node ?pp (color=red) [cat=pp] {
        node ?p (color=red, mark=lex) [cat=under]
        node ?np (color=red, mark=subst) [cat=np, top=[idx=?x, wh=plus]]
      }
      node ?s [cat=s, top=[inv=plus]]
    }
  };
  <iface>{ [under=?x] }
}

class UnderArgument
{
  CanonicalUnder[] | WhUnder[]
}

class CanonicalUntil
export ?pp ?np ?x
declare ?vp ?v ?pp ?p ?np ?x
{
  <syn>{
    node ?vp [cat=vp] {
      node ?v [cat=v]
      ,,, node ?pp (color=red) [cat=pp] {
        node ?p (color=red, mark=lex) [cat=until]
        node ?np (color=red, mark=subst) [cat=np, top=[idx=?x, case=acc]]
      }
    }
  };
  <iface>{ [until=?x] }
}

class WhUntil
export ?x
declare ?top ?pp ?p ?np ?s ?x
{
  <syn>{
    node ?top (color=red) [cat=s, bot=[wh=plus]] {
      node ?pp (color=red) [cat=pp] {
        node ?p (color=red, mark=lex) [cat=until]
        node ?np (color=red, mark=subst) [cat=np, top=[idx=?x, wh=plus]]
      }
      node ?s [cat=s, top=[inv=plus]]
    }
  };
  <iface>{ [until=?x] }
}

class UntilArgument
{
  CanonicalUntil[] | WhUntil[]
}

class CanonicalUp
export ?pp ?np ?x
declare ?vp ?v ?pp ?p ?np ?x
{
  <syn>{
    node ?vp [cat=vp] {
      node ?v [cat=v]
      ,,, node ?pp (color=red) [cat=pp] {
        node ?p (color=red, mark=lex) [cat=up]
        node ?np (color=red, mark=subst) [cat=np, top=[idx=?x, case=acc]]
      }
    }
  };
  <iface>{ [up=?x] }
}

class WhUp
export ?x
declare ?top ?pp ?p ?np ?s ?x
{
  <syn>{
    node ?top (color=red) [cat=s, bot=[wh=plus]] {
      node ?pp (color=red) [cat=pp] {
        node ?p (color=red, mark=lex) [cat=up]
        node ?np (color=red, mark=subst) [cat=np, top=[idx=?x, wh=plus]]
      }
      node ?s [cat=s, top=[inv=plus]]
    }
  };
  <iface>{ [up=?x] }
}

class UpArgument
{
  CanonicalUp[] | WhUp[]
}

class CanonicalUpon
export ?pp ?np ?x
declare ?vp ?v ?pp ?p ?np ?x
{
  <syn>{
    node ?vp [cat=vp] {
      node ?v [cat=v]
      ,,, node ?pp (color=red) [cat=pp] {
        node ?p (color=red, mark=lex) [cat=upon]
        node ?np (color=red, mark=subst) [cat=np, top=[idx=?x, case=acc]]
      }
    }
  };
  <iface>{ [upon=?x] }
}

class WhUpon
export ?x
declare ?top ?pp ?p ?np ?s ?x
{
  <syn>{
    node ?top (color=red) [cat=s, bot=[wh=plus]] {
      node ?pp (color=red) [cat=pp] {
        node ?p (color=red, mark=lex) [cat=upon]
        node ?np (color=red, mark=subst) [cat=np, top=[idx=?x, wh=plus]]
      }
      node ?s [cat=s, top=[inv=plus]]
    }
  };
  <iface>{ [upon=?x] }
}

class UponArgument
{
  CanonicalUpon[] | WhUpon[]
}

class CanonicalVia
export ?pp ?np ?x
declare ?vp ?v ?pp ?p ?np ?x
{
  <syn>{
    node ?vp [cat=vp] {
      node ?v [cat=v]
      ,,, node ?pp (color=red) [cat=pp] {
        node ?p (color=red, mark=lex) [cat=via]
        node ?np (color=red, mark=subst) [cat=np, top=[idx=?x, case=acc]]
      }
    }
  };
  <iface>{ [via=?x] }
}

class WhVia
export ?x
declare ?top ?pp ?p ?np ?s ?x
{
  <syn>{
    node ?top (color=red) [cat=s, bot=[wh=plus]] {
      node ?pp (color=red) [cat=pp] {
        node ?p (color=red, mark=lex) [cat=via]
        node ?np (color=red, mark=subst) [cat=np, top=[idx=?x, wh=plus]]
      }
      node ?s [cat=s, top=[inv=plus]]
    }
  };
  <iface>{ [via=?x] }
}

class ViaArgument
{
  CanonicalVia[] | WhVia[]
}

class CanonicalWith
export ?pp ?np ?x
declare ?vp ?v ?pp ?p ?np ?x
{
  <syn>{
    node ?vp [cat=vp] {
      node ?v [cat=v]
      ,,, node ?pp (color=red) [cat=pp] {
        node ?p (color=red, mark=lex) [cat=with]
        node ?np (color=red, mark=subst) [cat=np, top=[idx=?x, case=acc]]
      }
    }
  };
  <iface>{ [with=?x] }
}

class WhWith
export ?x
declare ?top ?pp ?p ?np ?s ?x
{
  <syn>{
    node ?top (color=red) [cat=s, bot=[wh=plus]] {
      node ?pp (color=red) [cat=pp] {
        node ?p (color=red, mark=lex) [cat=with]
        node ?np (color=red, mark=subst) [cat=np, top=[idx=?x, wh=plus]]
      }
      node ?s [cat=s, top=[inv=plus]]
    }
  };
  <iface>{ [with=?x] }
}

class WithArgument
{
  CanonicalWith[] | WhWith[]
}

class CanonicalWithin
export ?pp ?np ?x
declare ?vp ?v ?pp ?p ?np ?x
{
  <syn>{
    node ?vp [cat=vp] {
      node ?v [cat=v]
      ,,, node ?pp (color=red) [cat=pp] {
        node ?p (color=red, mark=lex) [cat=within]
        node ?np (color=red, mark=subst) [cat=np, top=[idx=?x, case=acc]]
      }
    }
  };
  <iface>{ [within=?x] }
}

class WhWithin
export ?x
declare ?top ?pp ?p ?np ?s ?x
{
  <syn>{
    node ?top (color=red) [cat=s, bot=[wh=plus]] {
      node ?pp (color=red) [cat=pp] {
        node ?p (color=red, mark=lex) [cat=within]
        node ?np (color=red, mark=subst) [cat=np, top=[idx=?x, wh=plus]]
      }
      node ?s [cat=s, top=[inv=plus]]
    }
  };
  <iface>{ [within=?x] }
}

class WithinArgument
{
  CanonicalWithin[] | WhWithin[]
}

class CanonicalWithout
export ?pp ?np ?x
declare ?vp ?v ?pp ?p ?np ?x
{
  <syn>{
    node ?vp [cat=vp] {
      node ?v [cat=v]
      ,,, node ?pp (color=red) [cat=pp] {
        node ?p (color=red, mark=lex) [cat=without]
        node ?np (color=red, mark=subst) [cat=np, top=[idx=?x, case=acc]]
      }
    }
  };
  <iface>{ [without=?x] }
}

class WhWithout
export ?x
declare ?top ?pp ?p ?np ?s ?x
{
  <syn>{
    node ?top (color=red) [cat=s, bot=[wh=plus]] {
      node ?pp (color=red) [cat=pp] {
        node ?p (color=red, mark=lex) [cat=without]
        node ?np (color=red, mark=subst) [cat=np, top=[idx=?x, wh=plus]]
      }
      node ?s [cat=s, top=[inv=plus]]
    }
  };
  <iface>{ [without=?x] }
}

class WithoutArgument
{
  CanonicalWithout[] | WhWithout[]
}

% ---- Families of verbs

% sleep

class Intransitive
{
  Subject[];
  ActiveVerb[]
}

% see

class Transitive
{
  { Subject[]; Object[]; ActiveVerb[]
  | PassiveSubject[]; PassiveVerb[]; { ByAgent[] | NoAgent[] } }
}

% give someone something

class Ditransitive
{
  Subject[];
  Object[];
  SecondObject[];
  ActiveVerb[]
}

% be tall

class Copula
declare ?s ?np ?vp ?be ?ap ?a ?x ?n ?l ?p
{
  <syn>{
    node ?s (color=black) [cat=s] {
      node ?np (color=black, mark=subst) [cat=np, top=[idx=?x, num=?n, case=nom]]
      node ?vp (color=black) [cat=vp] {
        node ?be (color=black, mark=coanchor, name=be) [cat=v, top=[num=?n]]
        node ?ap (color=black) [cat=ap] { node ?a (color=black, mark=anchor) [cat=a] }
      }
    }
  };
  <sem>{ ?l:?p(?x) };
  <iface>{ [arg0=?x, label=?l] }
}

% say that

class SententialObject
declare ?vp ?v ?clause ?q ?h
{
  Subject[];
  ActiveVerb[];
  <syn>{
    ?vp -> ?v;
    ?vp -> ?clause;
    ?v >>+ ?clause;
    node ?vp [cat=vp];
    node ?v [cat=v];
    node ?clause (color=red, mark=foot) [cat=s, top=[mode=ind]]
  };
  <iface>{ [arg1=?q] };
  <sem>{ ?h:holds(?q) ?q:content(?h) }
}

% seem to

class Raising
declare ?root ?v ?to ?foot ?l ?p ?q
{
  <syn>{
    node ?root (color=black) [cat=vp] {
      node ?v (color=black, mark=anchor) [cat=v]
      node ?to (color=black, mark=lex) [cat=to]
      node ?foot (color=black, mark=foot) [cat=vp, top=[mode=inf]]
    }
  };
  <sem>{ ?l:?p(?q) };
  <iface>{ [label=?l, arg0=?q] }
}

class IntransitiveWithAbout
{
  Subject[];
  AboutArgument[];
  ActiveVerb[]
}

class TransitiveWithAbout
{
  Subject[];
  Object[];
  AboutArgument[];
  ActiveVerb[]
}

class IntransitiveWithAbove
{
  Subject[];
  AboveArgument[];
  ActiveVerb[]
}

class TransitiveWithAbove
{
  Subject[];
  Object[];
  AboveArgument[];
  ActiveVerb[]
}

class IntransitiveWithAcross
{
  Subject[];
  AcrossArgument[];
  ActiveVerb[]
}

class TransitiveWithAcross
{
  Subject[];
  Object[];
  AcrossArgument[];
  ActiveVerb[]
}

class IntransitiveWithAfter
{
  Subject[];
  AfterArgument[];
  ActiveVerb[]
}

class TransitiveWithAfter
{
  Subject[];
  Object[];
  AfterArgument[];
  ActiveVerb[]
}

class IntransitiveWithAgainst
{
  Subject[];
  AgainstArgument[];
  ActiveVerb[]
}

class TransitiveWithAgainst
{
  Subject[];
  Object[];
  AgainstArgument[];
  ActiveVerb[]
}

class IntransitiveWithAlong
{
  Subject[];
  AlongArgument[];
  ActiveVerb[]
}

class TransitiveWithAlong
{
  Subject[];
  Object[];
  AlongArgument[];
  ActiveVerb[]
}

class IntransitiveWithAmong
{
  Subject[];
  AmongArgument[];
  ActiveVerb[]
}

class TransitiveWithAmong
{
  Subject[];
  Object[];
  AmongArgument[];
  ActiveVerb[]
}

class IntransitiveWithAround
{
  Subject[];
  AroundArgument[];
  ActiveVerb[]
}

class TransitiveWithAround
{
  Subject[];
  Object[];
  AroundArgument[];
  ActiveVerb[]
}

class IntransitiveWithAs
{
  Subject[];
  AsArgument[];
  ActiveVerb[]
}

class TransitiveWithAs
{
  Subject[];
  Object[];
  AsArgument[];
  ActiveVerb[]
}

class IntransitiveWithAt
{
  Subject[];
  AtArgument[];
  ActiveVerb[]
}

class TransitiveWithAt
{
  Subject[];
  Object[];
  AtArgument[];
  ActiveVerb[]
}

class IntransitiveWithBefore
{
  Subject[];
  BeforeArgument[];
  ActiveVerb[]
}

class TransitiveWithBefore
{
  Subject[];
  Object[];
  BeforeArgument[];
  ActiveVerb[]
}

class IntransitiveWithBehind
{
  Subject[];
  BehindArgument[];
  ActiveVerb[]
}

class TransitiveWithBehind
{
  Subject[];
  Object[];
  BehindArgument[];
  ActiveVerb[]
}

class IntransitiveWithBelow
{
  Subject[];
  BelowArgument[];
  ActiveVerb[]
}

class TransitiveWithBelow
{
  Subject[];
  Object[];
  BelowArgument[];
  ActiveVerb[]
}

class IntransitiveWithBeneath
{
  Subject[];
  BeneathArgument[];
  ActiveVerb[]
}

class TransitiveWithBeneath
{
  Subject[];
  Object[];
  BeneathArgument[];
  ActiveVerb[]
}

class IntransitiveWithBeside
{
  Subject[];
  BesideArgument[];
  ActiveVerb[]
}

class TransitiveWithBeside
{
  Subject[];
  Object[];
  BesideArgument[];
  ActiveVerb[]
}

class IntransitiveWithBetween
{
  Subject[];
  BetweenArgument[];
  ActiveVerb[]
}

class TransitiveWithBetween
{
  Subject[];
  Object[];
  BetweenArgument[];
  ActiveVerb[]
}

class IntransitiveWithBeyond
{
  Subject[];
  BeyondArgument[];
  ActiveVerb[]
}

class TransitiveWithBeyond
{
  Subject[];
  Object[];
  BeyondArgument[];
  ActiveVerb[]
}

class IntransitiveWithBy
{
  Subject[];
  ByArgument[];
  ActiveVerb[]
}

class TransitiveWithBy
{
  Subject[];
  Object[];
  ByArgument[];
  ActiveVerb[]
}

class IntransitiveWithDown
{
  Subject[];
  DownArgument[];
  ActiveVerb[]
}

class TransitiveWithDown
{
  Subject[];
  Object[];
  DownArgument[];
  ActiveVerb[]
}

class IntransitiveWithDuring
{
  Subject[];
  DuringArgument[];
  ActiveVerb[]
}

class TransitiveWithDuring
{
  Subject[];
  Object[];
  DuringArgument[];
  ActiveVerb[]
}

class IntransitiveWithFor
{
  Subject[];
  ForArgument[];
  ActiveVerb[]
}

class TransitiveWithFor
{
  Subject[];
  Object[];
  ForArgument[];
  ActiveVerb[]
}

class IntransitiveWithFrom
{
  Subject[];
  FromArgument[];
  ActiveVerb[]
}

class TransitiveWithFrom
{
  Subject[];
  Object[];
  FromArgument[];
  ActiveVerb[]
}

class IntransitiveWithIn
{
  Subject[];
  InArgument[];
  ActiveVerb[]
}

class TransitiveWithIn
{
  Subject[];
  Object[];
  InArgument[];
  ActiveVerb[]
}

class IntransitiveWithInside
{
  Subject[];
  InsideArgument[];
  ActiveVerb[]
}

class TransitiveWithInside
{
  Subject[];
  Object[];
  InsideArgument[];
  ActiveVerb[]
}

class IntransitiveWithInto
{
  Subject[];
  IntoArgument[];
  ActiveVerb[]
}

class TransitiveWithInto
{
  Subject[];
  Object[];
  IntoArgument[];
  ActiveVerb[]
}

class IntransitiveWithNear
{
  Subject[];
  NearArgument[];
  ActiveVerb[]
}

class TransitiveWithNear
{
  Subject[];
  Object[];
  NearArgument[];
  ActiveVerb[]
}

class IntransitiveWithOf
{
  Subject[];
  OfArgument[];
  ActiveVerb[]
}

class TransitiveWithOf
{
  Subject[];
  Object[];
  OfArgument[];
  ActiveVerb[]
}

class IntransitiveWithOff
{
  Subject[];
  OffArgument[];
  ActiveVerb[]
}

class TransitiveWithOff
{
  Subject[];
  Object[];
  OffArgument[];
  ActiveVerb[]
}

class IntransitiveWithOn
{
  Subject[];
  OnArgument[];
  ActiveVerb[]
}

class TransitiveWithOn
{
  Subject[];
  Object[];
  OnArgument[];
  ActiveVerb[]
}

class IntransitiveWithOnto
{
  Subject[];
  OntoArgument[];
  ActiveVerb[]
}

class TransitiveWithOnto
{
  Subject[];
  Object[];
  OntoArgument[];
  ActiveVerb[]
}

class IntransitiveWithOut
{
  Subject[];
  OutArgument[];
  ActiveVerb[]
}

class TransitiveWithOut
{
  Subject[];
  Object[];
  OutArgument[];
  ActiveVerb[]
}

class IntransitiveWithOver
{
  Subject[];
  OverArgument[];
  ActiveVerb[]
}

class TransitiveWithOver
{
  Subject[];
  Object[];
  OverArgument[];
  ActiveVerb[]
}

class IntransitiveWithPast
{
  Subject[];
  PastArgument[];
  ActiveVerb[]
}

class TransitiveWithPast
{
  Subject[];
  Object[];
  PastArgument[];
  ActiveVerb[]
}

class IntransitiveWithRound
{
  Subject[];
  RoundArgument[];
  ActiveVerb[]
}

class TransitiveWithRound
{
  Subject[];
  Object[];
  RoundArgument[];
  ActiveVerb[]
}

class IntransitiveWithSince
{
  Subject[];
  SinceArgument[];
  ActiveVerb[]
}

class TransitiveWithSince
{
  Subject[];
  Object[];
  SinceArgument[];
  ActiveVerb[]
}

class IntransitiveWithThrough
{
  Subject[];
  ThroughArgument[];
  ActiveVerb[]
}

class TransitiveWithThrough
{
  Subject[];
  Object[];
  ThroughArgument[];
  ActiveVerb[]
}

class IntransitiveWithTo
{
  Subject[];
  ToArgument[];
  ActiveVerb[]
}

class TransitiveWithTo
{
  Subject[];
  Object[];
  ToArgument[];
  ActiveVerb[]
}

class IntransitiveWithToward
{
  Subject[];
  TowardArgument[];
  ActiveVerb[]
}

class TransitiveWithToward
{
  Subject[];
  Object[];
  TowardArgument[];
  ActiveVerb[]
}

class IntransitiveWithUnder
{
  Subject[];
  UnderArgument[];
  ActiveVerb[]
}

class TransitiveWithUnder
{
  Subject[];
  Object[];
  UnderArgument[];
  ActiveVerb[]
}

class IntransitiveWithUntil
{
  Subject[];
  UntilArgument[];
  ActiveVerb[]
}

class TransitiveWithUntil
{
  Subject[];
  Object[];
  UntilArgument[];
  ActiveVerb[]
}

class IntransitiveWithUp
{
  Subject[];
  UpArgument[];
  ActiveVerb[]
}

class TransitiveWithUp
{
  Subject[];
  Object[];
  UpArgument[];
  ActiveVerb[]
}

class IntransitiveWithUpon
{
  Subject[];
  UponArgument[];
  ActiveVerb[]
}

class TransitiveWithUpon
{
  Subject[];
  Object[];
  UponArgument[];
  ActiveVerb[]
}

class IntransitiveWithVia
{
  Subject[];
  ViaArgument[];
  ActiveVerb[]
}

class TransitiveWithVia
{
  Subject[];
  Object[];
  ViaArgument[];
  ActiveVerb[]
}

class IntransitiveWithWith
{
  Subject[];
  WithArgument[];
  ActiveVerb[]
}

class TransitiveWithWith
{
  Subject[];
  Object[];
  WithArgument[];
  ActiveVerb[]
}

class IntransitiveWithWithin
{
  Subject[];
  WithinArgument[];
  ActiveVerb[]
}

class TransitiveWithWithin
{
  Subject[];
  Object[];
  WithinArgument[];
  ActiveVerb[]
}

class IntransitiveWithWithout
{
  Subject[];
  WithoutArgument[];
  ActiveVerb[]
}

class TransitiveWithWithout
{
  Subject[];
  Object[];
  WithoutArgument[];
  ActiveVerb[]
}

% ---- Nouns and what modifies them

class ProperNoun
declare ?x ?p
{
  <syn>{ node (mark=anchor, color=black) [cat=np, bot=[idx=?x, num=sg]] };
  <sem>{ name(?x, ?p) };
  <iface>{ [idx=?x, pred=?p] }
}

class CommonNoun
declare ?np ?det ?n1 ?a ?x ?n ?l ?p
{
  <syn>{
    node ?np (color=black) [cat=np, bot=[idx=?x, num=?n]] {
      node ?det (color=black, mark=subst) [cat=det, top=[num=?n]]
      node ?n1 (color=black) [cat=n, top=[idx=?x, num=?n], bot=[idx=?x, num=?n]] { node ?a (color=black, mark=anchor) [cat=n] }
    }
  };
  <sem>{ ?l:?p(?x) };
  <iface>{ [idx=?x, label=?l] }
}

class MassNoun
declare ?np ?a ?x ?l ?p
{
  <syn>{
    node ?np (color=black) [cat=np, bot=[idx=?x, num=sg]] { ... node ?a (color=black, mark=anchor) [cat=n] }
  };
  <sem>{ ?l:?p(?x) }
}

class DeterminerThe
declare ?q ?x ?r ?s
{
  <syn>{ node (color=black, mark=lex) [cat="the"] };
  <sem>{ ?q:"the"(?x, ?r, ?s) };
  <iface>{ [idx=?x, quant=?q, restr=?r, scope=?s] }
}

class DeterminerEvery
declare ?q ?x ?r ?s
{
  <syn>{ node (color=black, mark=lex) [cat="every"] };
  <sem>{ ?q:"every"(?x, ?r, ?s) };
  <iface>{ [idx=?x, quant=?q, restr=?r, scope=?s] }
}

class DeterminerSome
declare ?q ?x ?r ?s
{
  <syn>{ node (color=black, mark=lex) [cat="some"] };
  <sem>{ ?q:"some"(?x, ?r, ?s) };
  <iface>{ [idx=?x, quant=?q, restr=?r, scope=?s] }
}

class DeterminerNo
declare ?q ?x ?r ?s
{
  <syn>{ node (color=black, mark=lex) [cat="no"] };
  <sem>{ ?q:"no"(?x, ?r, ?s) };
  <iface>{ [idx=?x, quant=?q, restr=?r, scope=?s] }
}

class DeterminerThis
declare ?q ?x ?r ?s
{
  <syn>{ node (color=black, mark=lex) [cat="this"] };
  <sem>{ ?q:"this"(?x, ?r, ?s) };
  <iface>{ [idx=?x, quant=?q, restr=?r, scope=?s] }
}

class DeterminerThat
declare ?q ?x ?r ?s
{
  <syn>{ node (color=black, mark=lex) [cat="that"] };
  <sem>{ ?q:"that"(?x, ?r, ?s) };
  <iface>{ [idx=?x, quant=?q, restr=?r, scope=?s] }
}

class DeterminerEach
declare ?q ?x ?r ?s
{
  <syn>{ node (color=black, mark=lex) [cat="each"] };
  <sem>{ ?q:"each"(?x, ?r, ?s) };
  <iface>{ [idx=?x, quant=?q, restr=?r, scope=?s] }
}

class DeterminerMost
declare ?q ?x ?r ?s
{
  <syn>{ node (color=black, mark=lex) [cat="most"] };
  <sem>{ ?q:"most"(?x, ?r, ?s) };
  <iface>{ [idx=?x, quant=?q, restr=?r, scope=?s] }
}

class Adjective
declare ?root ?a ?foot ?x ?l ?p
{
  <syn>{
    node ?root (color=black) [cat=n, bot=[idx=?x]] {
      node ?a (color=black, mark=anchor) [cat=a]
      node ?foot (color=black, mark=foot) [cat=n, top=[idx=?x]]
    }
  };
  <sem>{ ?l:?p(?x) };
  <iface>{ [idx=?x] }
}

class Adverb
declare ?root ?foot ?adv ?top ?l ?p ?e
{
  <syn>{
    node ?root (color=black) [cat=vp] {
      node ?foot (color=black, mark=foot) [cat=vp]
      node ?adv (color=black, mark=anchor) [cat=adv]
    }
    ; ?root ->+ ?adv; ?root ->* ?adv; ?foot >> ?adv; ?foot >>* ?adv; ?root = ?top
  };
  <sem>{ ?l:?p(?e) };
  <iface>{ [e=?e] }
}

% A description whose parts stand apart.

class Gapped
declare ?root ?low ?right
{
  <syn>{
    node ?root (color=black) [cat=s] {
      ...+ node ?low (color=black, mark=nadj) [cat=v]
      ,,, node ?right (color=black) [cat=punct, top=[], bot=[kind=comma]] { }
    }
  }
}

class ModifierAbout
declare ?root ?foot ?pp ?p ?np ?x ?y ?l
{
  <syn>{
    node ?root (color=black) [cat=np, bot=[idx=?x]] {
      node ?foot (color=black, mark=foot) [cat=np, top=[idx=?x]]
      node ?pp (color=black) [cat=pp] {
        node ?p (color=black, mark=anchor) [cat=p, bot=[form=about]]
        node ?np (color=black, mark=subst) [cat=np, top=[idx=?y, case=acc]]
      }
    }
  };
  <sem>{ ?l:about(?x ?y) };
  <iface>{ [idx=?x, other=?y] }
}

class ModifierAbove
declare ?root ?foot ?pp ?p ?np ?x ?y ?l
{
  <syn>{
    node ?root (color=black) [cat=np, bot=[idx=?x]] {
      node ?foot (color=black, mark=foot) [cat=np, top=[idx=?x]]
      node ?pp (color=black) [cat=pp] {
        node ?p (color=black, mark=anchor) [cat=p, bot=[form=above]]
        node ?np (color=black, mark=subst) [cat=np, top=[idx=?y, case=acc]]
      }
    }
  };
  <sem>{ ?l:above(?x ?y) };
  <iface>{ [idx=?x, other=?y] }
}

class ModifierAcross
declare ?root ?foot ?pp ?p ?np ?x ?y ?l
{
  <syn>{
    node ?root (color=black) [cat=np, bot=[idx=?x]] {
      node ?foot (color=black, mark=foot) [cat=np, top=[idx=?x]]
      node ?pp (color=black) [cat=pp] {
        node ?p (color=black, mark=anchor) [cat=p, bot=[form=across]]
        node ?np (color=black, mark=subst) [cat=np, top=[idx=?y, case=acc]]
      }
    }
  };
  <sem>{ ?l:across(?x ?y) };
  <iface>{ [idx=?x, other=?y] }
}

class ModifierAfter
declare ?root ?foot ?pp ?p ?np ?x ?y ?l
{
  <syn>{
    node ?root (color=black) [cat=np, bot=[idx=?x]] {
      node ?foot (color=black, mark=foot) [cat=np, top=[idx=?x]]
      node ?pp (color=black) [cat=pp] {
        node ?p (color=black, mark=anchor) [cat=p, bot=[form=after]]
        node ?np (color=black, mark=subst) [cat=np, top=[idx=?y, case=acc]]
      }
    }
  };
  <sem>{ ?l:after(?x ?y) };
  <iface>{ [idx=?x, other=?y] }
}

class ModifierAgainst
declare ?root ?foot ?pp ?p ?np ?x ?y ?l
{
  <syn>{
    node ?root (color=black) [cat=np, bot=[idx=?x]] {
      node ?foot (color=black, mark=foot) [cat=np, top=[idx=?x]]
      node ?pp (color=black) [cat=pp] {
        node ?p (color=black, mark=anchor) [cat=p, bot=[form=against]]
        node ?np (color=black, mark=subst) [cat=np, top=[idx=?y, case=acc]]
      }
    }
  };
  <sem>{ ?l:against(?x ?y) };
  <iface>{ [idx=?x, other=?y] }
}

class ModifierAlong
declare ?root ?foot ?pp ?p ?np ?x ?y ?l
{
  <syn>{
    node ?root (color=black) [cat=np, bot=[idx=?x]] {
      node ?foot (color=black, mark=foot) [cat=np, top=[idx=?x]]
      node ?pp (color=black) [cat=pp] {
        node ?p (color=black, mark=anchor) [cat=p, bot=[form=along]]
        node ?np (color=black, mark=subst) [cat=np, top=[idx=?y, case=acc]]
      }
    }
  };
  <sem>{ ?l:along(?x ?y) };
  <iface>{ [idx=?x, other=?y] }
}

class ModifierAmong
declare ?root ?foot ?pp ?p ?np ?x ?y ?l
{
  <syn>{
    node ?root (color=black) [cat=np, bot=[idx=?x]] {
      node ?foot (color=black, mark=foot) [cat=np, top=[idx=?x]]
      node ?pp (color=black) [cat=pp] {
        node ?p (color=black, mark=anchor) [cat=p, bot=[form=among]]
        node ?np (color=black, mark=subst) [cat=np, top=[idx=?y, case=acc]]
      }
    }
  };
  <sem>{ ?l:among(?x ?y) };
  <iface>{ [idx=?x, other=?y] }
}

class ModifierAround
declare ?root ?foot ?pp ?p ?np ?x ?y ?l
{
  <syn>{
    node ?root (color=black) [cat=np, bot=[idx=?x]] {
      node ?foot (color=black, mark=foot) [cat=np, top=[idx=?x]]
      node ?pp (color=black) [cat=pp] {
        node ?p (color=black, mark=anchor) [cat=p, bot=[form=around]]
        node ?np (color=black, mark=subst) [cat=np, top=[idx=?y, case=acc]]
      }
    }
  };
  <sem>{ ?l:around(?x ?y) };
  <iface>{ [idx=?x, other=?y] }
}

class ModifierAs
declare ?root ?foot ?pp ?p ?np ?x ?y ?l
{
  <syn>{
    node ?root (color=black) [cat=np, bot=[idx=?x]] {
      node ?foot (color=black, mark=foot) [cat=np, top=[idx=?x]]
      node ?pp (color=black) [cat=pp] {
        node ?p (color=black, mark=anchor) [cat=p, bot=[form=as]]
        node ?np (color=black, mark=subst) [cat=np, top=[idx=?y, case=acc]]
      }
    }
  };
  <sem>{ ?l:as(?x ?y) };
  <iface>{ [idx=?x, other=?y] }
}

class ModifierAt
declare ?root ?foot ?pp ?p ?np ?x ?y ?l
{
  <syn>{
    node ?root (color=black) [cat=np, bot=[idx=?x]] {
      node ?foot (color=black, mark=foot) [cat=np, top=[idx=?x]]
      node ?pp (color=black) [cat=pp] {
        node ?p (color=black, mark=anchor) [cat=p, bot=[form=at]]
        node ?np (color=black, mark=subst) [cat=np, top=[idx=?y, case=acc]]
      }
    }
  };
  <sem>{ ?l:at(?x ?y) };
  <iface>{ [idx=?x, other=?y] }
}

class ModifierBefore
declare ?root ?foot ?pp ?p ?np ?x ?y ?l
{
  <syn>{
    node ?root (color=black) [cat=np, bot=[idx=?x]] {
      node ?foot (color=black, mark=foot) [cat=np, top=[idx=?x]]
      node ?pp (color=black) [cat=pp] {
        node ?p (color=black, mark=anchor) [cat=p, bot=[form=before]]
        node ?np (color=black, mark=subst) [cat=np, top=[idx=?y, case=acc]]
      }
    }
  };
  <sem>{ ?l:before(?x ?y) };
  <iface>{ [idx=?x, other=?y] }
}

class ModifierBehind
declare ?root ?foot ?pp ?p ?np ?x ?y ?l
{
  <syn>{
    node ?root (color=black) [cat=np, bot=[idx=?x]] {
      node ?foot (color=black, mark=foot) [cat=np, top=[idx=?x]]
      node ?pp (color=black) [cat=pp] {
        node ?p (color=black, mark=anchor) [cat=p, bot=[form=behind]]
        node ?np (color=black, mark=subst) [cat=np, top=[idx=?y, case=acc]]
      }
    }
  };
  <sem>{ ?l:behind(?x ?y) };
  <iface>{ [idx=?x, other=?y] }
}

class ModifierBelow
declare ?root ?foot ?pp ?p ?np ?x ?y ?l
{
  <syn>{
    node ?root (color=black) [cat=np, bot=[idx=?x]] {
      node ?foot (color=black, mark=foot) [cat=np, top=[idx=?x]]
      node ?pp (color=black) [cat=pp] {
        node ?p (color=black, mark=anchor) [cat=p, bot=[form=below]]
        node ?np (color=black, mark=subst) [cat=np, top=[idx=?y, case=acc]]
      }
    }
  };
  <sem>{ ?l:below(?x ?y) };
  <iface>{ [idx=?x, other=?y] }
}

class ModifierBeneath
declare ?root ?foot ?pp ?p ?np ?x ?y ?l
{
  <syn>{
    node ?root (color=black) [cat=np, bot=[idx=?x]] {
      node ?foot (color=black, mark=foot) [cat=np, top=[idx=?x]]
      node ?pp (color=black) [cat=pp] {
        node ?p (color=black, mark=anchor) [cat=p, bot=[form=beneath]]
        node ?np (color=black, mark=subst) [cat=np, top=[idx=?y, case=acc]]
      }
    }
  };
  <sem>{ ?l:beneath(?x ?y) };
  <iface>{ [idx=?x, other=?y] }
}

class ModifierBeside
declare ?root ?foot ?pp ?p ?np ?x ?y ?l
{
  <syn>{
    node ?root (color=black) [cat=np, bot=[idx=?x]] {
      node ?foot (color=black, mark=foot) [cat=np, top=[idx=?x]]
      node ?pp (color=black) [cat=pp] {
        node ?p (color=black, mark=anchor) [cat=p, bot=[form=beside]]
        node ?np (color=black, mark=subst) [cat=np, top=[idx=?y, case=acc]]
      }
    }
  };
  <sem>{ ?l:beside(?x ?y) };
  <iface>{ [idx=?x, other=?y] }
}

class ModifierBetween
declare ?root ?foot ?pp ?p ?np ?x ?y ?l
{
  <syn>{
    node ?root (color=black) [cat=np, bot=[idx=?x]] {
      node ?foot (color=black, mark=foot) [cat=np, top=[idx=?x]]
      node ?pp (color=black) [cat=pp] {
        node ?p (color=black, mark=anchor) [cat=p, bot=[form=between]]
        node ?np (color=black, mark=subst) [cat=np, top=[idx=?y, case=acc]]
      }
    }
  };
  <sem>{ ?l:between(?x ?y) };
  <iface>{ [idx=?x, other=?y] }
}

class ModifierBeyond
declare ?root ?foot ?pp ?p ?np ?x ?y ?l
{
  <syn>{
    node ?root (color=black) [cat=np, bot=[idx=?x]] {
      node ?foot (color=black, mark=foot) [cat=np, top=[idx=?x]]
      node ?pp (color=black) [cat=pp] {
        node ?p (color=black, mark=anchor) [cat=p, bot=[form=beyond]]
        node ?np (color=black, mark=subst) [cat=np, top=[idx=?y, case=acc]]
      }
    }
  };
  <sem>{ ?l:beyond(?x ?y) };
  <iface>{ [idx=?x, other=?y] }
}

class ModifierBy
declare ?root ?foot ?pp ?p ?np ?x ?y ?l
{
  <syn>{
    node ?root (color=black) [cat=np, bot=[idx=?x]] {
      node ?foot (color=black, mark=foot) [cat=np, top=[idx=?x]]
      node ?pp (color=black) [cat=pp] {
        node ?p (color=black, mark=anchor) [cat=p, bot=[form=by]]
        node ?np (color=black, mark=subst) [cat=np, top=[idx=?y, case=acc]]
      }
    }
  };
  <sem>{ ?l:by(?x ?y) };
  <iface>{ [idx=?x, other=?y] }
}

class ModifierDown
declare ?root ?foot ?pp ?p ?np ?x ?y ?l
{
  <syn>{
    node ?root (color=black) [cat=np, bot=[idx=?x]] {
      node ?foot (color=black, mark=foot) [cat=np, top=[idx=?x]]
      node ?pp (color=black) [cat=pp] {
        node ?p (color=black, mark=anchor) [cat=p, bot=[form=down]]
        node ?np (color=black, mark=subst) [cat=np, top=[idx=?y, case=acc]]
      }
    }
  };
  <sem>{ ?l:down(?x ?y) };
  <iface>{ [idx=?x, other=?y] }
}

class ModifierDuring
declare ?root ?foot ?pp ?p ?np ?x ?y ?l
{
  <syn>{
    node ?root (color=black) [cat=np, bot=[idx=?x]] {
      node ?foot (color=black, mark=foot) [cat=np, top=[idx=?x]]
      node ?pp (color=black) [cat=pp] {
        node ?p (color=black, mark=anchor) [cat=p, bot=[form=during]]
        node ?np (color=black, mark=subst) [cat=np, top=[idx=?y, case=acc]]
      }
    }
  };
  <sem>{ ?l:during(?x ?y) };
  <iface>{ [idx=?x, other=?y] }
}

class ModifierFor
declare ?root ?foot ?pp ?p ?np ?x ?y ?l
{
  <syn>{
    node ?root (color=black) [cat=np, bot=[idx=?x]] {
      node ?foot (color=black, mark=foot) [cat=np, top=[idx=?x]]
      node ?pp (color=black) [cat=pp] {
        node ?p (color=black, mark=anchor) [cat=p, bot=[form=for]]
        node ?np (color=black, mark=subst) [cat=np, top=[idx=?y, case=acc]]
      }
    }
  };
  <sem>{ ?l:for(?x ?y) };
  <iface>{ [idx=?x, other=?y] }
}

class ModifierFrom
declare ?root ?foot ?pp ?p ?np ?x ?y ?l
{
  <syn>{
    node ?root (color=black) [cat=np, bot=[idx=?x]] {
      node ?foot (color=black, mark=foot) [cat=np, top=[idx=?x]]
      node ?pp (color=black) [cat=pp] {
        node ?p (color=black, mark=anchor) [cat=p, bot=[form=from]]
        node ?np (color=black, mark=subst) [cat=np, top=[idx=?y, case=acc]]
      }
    }
  };
  <sem>{ ?l:from(?x ?y) };
  <iface>{ [idx=?x, other=?y] }
}

class ModifierIn
declare ?root ?foot ?pp ?p ?np ?x ?y ?l
{
  <syn>{
    node ?root (color=black) [cat=np, bot=[idx=?x]] {
      node ?foot (color=black, mark=foot) [cat=np, top=[idx=?x]]
      node ?pp (color=black) [cat=pp] {
        node ?p (color=black, mark=anchor) [cat=p, bot=[form=in]]
        node ?np (color=black, mark=subst) [cat=np, top=[idx=?y, case=acc]]
      }
    }
  };
  <sem>{ ?l:in(?x ?y) };
  <iface>{ [idx=?x, other=?y] }
}

class ModifierInside
declare ?root ?foot ?pp ?p ?np ?x ?y ?l
{
  <syn>{
    node ?root (color=black) [cat=np, bot=[idx=?x]] {
      node ?foot (color=black, mark=foot) [cat=np, top=[idx=?x]]
      node ?pp (color=black) [cat=pp] {
        node ?p (color=black, mark=anchor) [cat=p, bot=[form=inside]]
        node ?np (color=black, mark=subst) [cat=np, top=[idx=?y, case=acc]]
      }
    }
  };
  <sem>{ ?l:inside(?x ?y) };
  <iface>{ [idx=?x, other=?y] }
}

class ModifierInto
declare ?root ?foot ?pp ?p ?np ?x ?y ?l
{
  <syn>{
    node ?root (color=black) [cat=np, bot=[idx=?x]] {
      node ?foot (color=black, mark=foot) [cat=np, top=[idx=?x]]
      node ?pp (color=black) [cat=pp] {
        node ?p (color=black, mark=anchor) [cat=p, bot=[form=into]]
        node ?np (color=black, mark=subst) [cat=np, top=[idx=?y, case=acc]]
      }
    }
  };
  <sem>{ ?l:into(?x ?y) };
  <iface>{ [idx=?x, other=?y] }
}

class ModifierNear
declare ?root ?foot ?pp ?p ?np ?x ?y ?l
{
  <syn>{
    node ?root (color=black) [cat=np, bot=[idx=?x]] {
      node ?foot (color=black, mark=foot) [cat=np, top=[idx=?x]]
      node ?pp (color=black) [cat=pp] {
        node ?p (color=black, mark=anchor) [cat=p, bot=[form=near]]
        node ?np (color=black, mark=subst) [cat=np, top=[idx=?y, case=acc]]
      }
    }
  };
  <sem>{ ?l:near(?x ?y) };
  <iface>{ [idx=?x, other=?y] }
}

class ModifierOf
declare ?root ?foot ?pp ?p ?np ?x ?y ?l
{
  <syn>{
    node ?root (color=black) [cat=np, bot=[idx=?x]] {
      node ?foot (color=black, mark=foot) [cat=np, top=[idx=?x]]
      node ?pp (color=black) [cat=pp] {
        node ?p (color=black, mark=anchor) [cat=p, bot=[form=of]]
        node ?np (color=black, mark=subst) [cat=np, top=[idx=?y, case=acc]]
      }
    }
  };
  <sem>{ ?l:of(?x ?y) };
  <iface>{ [idx=?x, other=?y] }
}

class ModifierOff
declare ?root ?foot ?pp ?p ?np ?x ?y ?l
{
  <syn>{
    node ?root (color=black) [cat=np, bot=[idx=?x]] {
      node ?foot (color=black, mark=foot) [cat=np, top=[idx=?x]]
      node ?pp (color=black) [cat=pp] {
        node ?p (color=black, mark=anchor) [cat=p, bot=[form=off]]
        node ?np (color=black, mark=subst) [cat=np, top=[idx=?y, case=acc]]
      }
    }
  };
  <sem>{ ?l:off(?x ?y) };
  <iface>{ [idx=?x, other=?y] }
}

class ModifierOn
declare ?root ?foot ?pp ?p ?np ?x ?y ?l
{
  <syn>{
    node ?root (color=black) [cat=np, bot=[idx=?x]] {
      node ?foot (color=black, mark=foot) [cat=np, top=[idx=?x]]
      node ?pp (color=black) [cat=pp] {
        node ?p (color=black, mark=anchor) [cat=p, bot=[form=on]]
        node ?np (color=black, mark=subst) [cat=np, top=[idx=?y, case=acc]]
      }
    }
  };
  <sem>{ ?l:on(?x ?y) };
  <iface>{ [idx=?x, other=?y] }
}

class ModifierOnto
declare ?root ?foot ?pp ?p ?np ?x ?y ?l
{
  <syn>{
    node ?root (color=black) [cat=np, bot=[idx=?x]] {
      node ?foot (color=black, mark=foot) [cat=np, top=[idx=?x]]
      node ?pp (color=black) [cat=pp] {
        node ?p (color=black, mark=anchor) [cat=p, bot=[form=onto]]
        node ?np (color=black, mark=subst) [cat=np, top=[idx=?y, case=acc]]
      }
    }
  };
  <sem>{ ?l:onto(?x ?y) };
  <iface>{ [idx=?x, other=?y] }
}

class ModifierOut
declare ?root ?foot ?pp ?p ?np ?x ?y ?l
{
  <syn>{
    node ?root (color=black) [cat=np, bot=[idx=?x]] {
      node ?foot (color=black, mark=foot) [cat=np, top=[idx=?x]]
      node ?pp (color=black) [cat=pp] {
        node ?p (color=black, mark=anchor) [cat=p, bot=[form=out]]
        node ?np (color=black, mark=subst) [cat=np, top=[idx=?y, case=acc]]
      }
    }
  };
  <sem>{ ?l:out(?x ?y) };
  <iface>{ [idx=?x, other=?y] }
}

class ModifierOver
declare ?root ?foot ?pp ?p ?np ?x ?y ?l
{
  <syn>{
    node ?root (color=black) [cat=np, bot=[idx=?x]] {
      node ?foot (color=black, mark=foot) [cat=np, top=[idx=?x]]
      node ?pp (color=black) [cat=pp] {
        node ?p (color=black, mark=anchor) [cat=p, bot=[form=over]]
        node ?np (color=black, mark=subst) [cat=np, top=[idx=?y, case=acc]]
      }
    }
  };
  <sem>{ ?l:over(?x ?y) };
  <iface>{ [idx=?x, other=?y] }
}

class ModifierPast
declare ?root ?foot ?pp ?p ?np ?x ?y ?l
{
  <syn>{
    node ?root (color=black) [cat=np, bot=[idx=?x]] {
      node ?foot (color=black, mark=foot) [cat=np, top=[idx=?x]]
      node ?pp (color=black) [cat=pp] {
        node ?p (color=black, mark=anchor) [cat=p, bot=[form=past]]
        node ?np (color=black, mark=subst) [cat=np, top=[idx=?y, case=acc]]
      }
    }
  };
  <sem>{ ?l:past(?x ?y) };
  <iface>{ [idx=?x, other=?y] }
}

class ModifierRound
declare ?root ?foot ?pp ?p ?np ?x ?y ?l
{
  <syn>{
    node ?root (color=black) [cat=np, bot=[idx=?x]] {
      node ?foot (color=black, mark=foot) [cat=np, top=[idx=?x]]
      node ?pp (color=black) [cat=pp] {
        node ?p (color=black, mark=anchor) [cat=p, bot=[form=round]]
        node ?np (color=black, mark=subst) [cat=np, top=[idx=?y, case=acc]]
      }
    }
  };
  <sem>{ ?l:round(?x ?y) };
  <iface>{ [idx=?x, other=?y] }
}

class ModifierSince
declare ?root ?foot ?pp ?p ?np ?x ?y ?l
{
  <syn>{
    node ?root (color=black) [cat=np, bot=[idx=?x]] {
      node ?foot (color=black, mark=foot) [cat=np, top=[idx=?x]]
      node ?pp (color=black) [cat=pp] {
        node ?p (color=black, mark=anchor) [cat=p, bot=[form=since]]
        node ?np (color=black, mark=subst) [cat=np, top=[idx=?y, case=acc]]
      }
    }
  };
  <sem>{ ?l:since(?x ?y) };
  <iface>{ [idx=?x, other=?y] }
}

class ModifierThrough
declare ?root ?foot ?pp ?p ?np ?x ?y ?l
{
  <syn>{
    node ?root (color=black) [cat=np, bot=[idx=?x]] {
      node ?foot (color=black, mark=foot) [cat=np, top=[idx=?x]]
      node ?pp (color=black) [cat=pp] {
        node ?p (color=black, mark=anchor) [cat=p, bot=[form=through]]
        node ?np (color=black, mark=subst) [cat=np, top=[idx=?y, case=acc]]
      }
    }
  };
  <sem>{ ?l:through(?x ?y) };
  <iface>{ [idx=?x, other=?y] }
}

class ModifierTo
declare ?root ?foot ?pp ?p ?np ?x ?y ?l
{
  <syn>{
    node ?root (color=black) [cat=np, bot=[idx=?x]] {
      node ?foot (color=black, mark=foot) [cat=np, top=[idx=?x]]
      node ?pp (color=black) [cat=pp] {
        node ?p (color=black, mark=anchor) [cat=p, bot=[form=to]]
        node ?np (color=black, mark=subst) [cat=np, top=[idx=?y, case=acc]]
      }
    }
  };
  <sem>{ ?l:to(?x ?y) };
  <iface>{ [idx=?x, other=?y] }
}

class ModifierToward
declare ?root ?foot ?pp ?p ?np ?x ?y ?l
{
  <syn>{
    node ?root (color=black) [cat=np, bot=[idx=?x]] {
      node ?foot (color=black, mark=foot) [cat=np, top=[idx=?x]]
      node ?pp (color=black) [cat=pp] {
        node ?p (color=black, mark=anchor) [cat=p, bot=[form=toward]]
        node ?np (color=black, mark=subst) [cat=np, top=[idx=?y, case=acc]]
      }
    }
  };
  <sem>{ ?l:toward(?x ?y) };
  <iface>{ [idx=?x, other=?y] }
}

class ModifierUnder
declare ?root ?foot ?pp ?p ?np ?x ?y ?l
{
  <syn>{
    node ?root (color=black) [cat=np, bot=[idx=?x]] {
      node ?foot (color=black, mark=foot) [cat=np, top=[idx=?x]]
      node ?pp (color=black) [cat=pp] {
        node ?p (color=black, mark=anchor) [cat=p, bot=[form=under]]
        node ?np (color=black, mark=subst) [cat=np, top=[idx=?y, case=acc]]
      }
    }
  };
  <sem>{ ?l:under(?x ?y) };
  <iface>{ [idx=?x, other=?y] }
}

class ModifierUntil
declare ?root ?foot ?pp ?p ?np ?x ?y ?l
{
  <syn>{
    node ?root (color=black) [cat=np, bot=[idx=?x]] {
      node ?foot (color=black, mark=foot) [cat=np, top=[idx=?x]]
      node ?pp (color=black) [cat=pp] {
        node ?p (color=black, mark=anchor) [cat=p, bot=[form=until]]
        node ?np (color=black, mark=subst) [cat=np, top=[idx=?y, case=acc]]
      }
    }
  };
  <sem>{ ?l:until(?x ?y) };
  <iface>{ [idx=?x, other=?y] }
}

class ModifierUp
declare ?root ?foot ?pp ?p ?np ?x ?y ?l
{
  <syn>{
    node ?root (color=black) [cat=np, bot=[idx=?x]] {
      node ?foot (color=black, mark=foot) [cat=np, top=[idx=?x]]
      node ?pp (color=black) [cat=pp] {
        node ?p (color=black, mark=anchor) [cat=p, bot=[form=up]]
        node ?np (color=black, mark=subst) [cat=np, top=[idx=?y, case=acc]]
      }
    }
  };
  <sem>{ ?l:up(?x ?y) };
  <iface>{ [idx=?x, other=?y] }
}

class ModifierUpon
declare ?root ?foot ?pp ?p ?np ?x ?y ?l
{
  <syn>{
    node ?root (color=black) [cat=np, bot=[idx=?x]] {
      node ?foot (color=black, mark=foot) [cat=np, top=[idx=?x]]
      node ?pp (color=black) [cat=pp] {
        node ?p (color=black, mark=anchor) [cat=p, bot=[form=upon]]
        node ?np (color=black, mark=subst) [cat=np, top=[idx=?y, case=acc]]
      }
    }
  };
  <sem>{ ?l:upon(?x ?y) };
  <iface>{ [idx=?x, other=?y] }
}

class ModifierVia
declare ?root ?foot ?pp ?p ?np ?x ?y ?l
{
  <syn>{
    node ?root (color=black) [cat=np, bot=[idx=?x]] {
      node ?foot (color=black, mark=foot) [cat=np, top=[idx=?x]]
      node ?pp (color=black) [cat=pp] {
        node ?p (color=black, mark=anchor) [cat=p, bot=[form=via]]
        node ?np (color=black, mark=subst) [cat=np, top=[idx=?y, case=acc]]
      }
    }
  };
  <sem>{ ?l:via(?x ?y) };
  <iface>{ [idx=?x, other=?y] }
}

class ModifierWith
declare ?root ?foot ?pp ?p ?np ?x ?y ?l
{
  <syn>{
    node ?root (color=black) [cat=np, bot=[idx=?x]] {
      node ?foot (color=black, mark=foot) [cat=np, top=[idx=?x]]
      node ?pp (color=black) [cat=pp] {
        node ?p (color=black, mark=anchor) [cat=p, bot=[form=with]]
        node ?np (color=black, mark=subst) [cat=np, top=[idx=?y, case=acc]]
      }
    }
  };
  <sem>{ ?l:with(?x ?y) };
  <iface>{ [idx=?x, other=?y] }
}

class ModifierWithin
declare ?root ?foot ?pp ?p ?np ?x ?y ?l
{
  <syn>{
    node ?root (color=black) [cat=np, bot=[idx=?x]] {
      node ?foot (color=black, mark=foot) [cat=np, top=[idx=?x]]
      node ?pp (color=black) [cat=pp] {
        node ?p (color=black, mark=anchor) [cat=p, bot=[form=within]]
        node ?np (color=black, mark=subst) [cat=np, top=[idx=?y, case=acc]]
      }
    }
  };
  <sem>{ ?l:within(?x ?y) };
  <iface>{ [idx=?x, other=?y] }
}

class ModifierWithout
declare ?root ?foot ?pp ?p ?np ?x ?y ?l
{
  <syn>{
    node ?root (color=black) [cat=np, bot=[idx=?x]] {
      node ?foot (color=black, mark=foot) [cat=np, top=[idx=?x]]
      node ?pp (color=black) [cat=pp] {
        node ?p (color=black, mark=anchor) [cat=p, bot=[form=without]]
        node ?np (color=black, mark=subst) [cat=np, top=[idx=?y, case=acc]]
      }
    }
  };
  <sem>{ ?l:without(?x ?y) };
  <iface>{ [idx=?x, other=?y] }
}

% ---- What is compiled

value Intransitive
value Transitive
value Ditransitive
value Copula
value SententialObject
value Raising
value IntransitiveWithAbout
value TransitiveWithAbout
value IntransitiveWithAbove
value TransitiveWithAbove
value IntransitiveWithAcross
value TransitiveWithAcross
value IntransitiveWithAfter
value TransitiveWithAfter
value IntransitiveWithAgainst
value TransitiveWithAgainst
value IntransitiveWithAlong
value TransitiveWithAlong
value IntransitiveWithAmong
value TransitiveWithAmong
value IntransitiveWithAround
value TransitiveWithAround
value IntransitiveWithAs
value TransitiveWithAs
value IntransitiveWithAt
value TransitiveWithAt
value IntransitiveWithBefore
value TransitiveWithBefore
value IntransitiveWithBehind
value TransitiveWithBehind
value IntransitiveWithBelow
value TransitiveWithBelow
value IntransitiveWithBeneath
value TransitiveWithBeneath
value IntransitiveWithBeside
value TransitiveWithBeside
value IntransitiveWithBetween
value TransitiveWithBetween
value IntransitiveWithBeyond
value TransitiveWithBeyond
value IntransitiveWithBy
value TransitiveWithBy
value IntransitiveWithDown
value TransitiveWithDown
value IntransitiveWithDuring
value TransitiveWithDuring
value IntransitiveWithFor
value TransitiveWithFor
value IntransitiveWithFrom
value TransitiveWithFrom
value IntransitiveWithIn
value TransitiveWithIn
value IntransitiveWithInside
value TransitiveWithInside
value IntransitiveWithInto
value TransitiveWithInto
value IntransitiveWithNear
value TransitiveWithNear
value IntransitiveWithOf
value TransitiveWithOf
value IntransitiveWithOff
value TransitiveWithOff
value IntransitiveWithOn
value TransitiveWithOn
value IntransitiveWithOnto
value TransitiveWithOnto
value IntransitiveWithOut
value TransitiveWithOut
value IntransitiveWithOver
value TransitiveWithOver
value IntransitiveWithPast
value TransitiveWithPast
value IntransitiveWithRound
value TransitiveWithRound
value IntransitiveWithSince
value TransitiveWithSince
value IntransitiveWithThrough
value TransitiveWithThrough
value IntransitiveWithTo
value TransitiveWithTo
value IntransitiveWithToward
value TransitiveWithToward
value IntransitiveWithUnder
value TransitiveWithUnder
value IntransitiveWithUntil
value TransitiveWithUntil
value IntransitiveWithUp
value TransitiveWithUp
value IntransitiveWithUpon
value TransitiveWithUpon
value IntransitiveWithVia
value TransitiveWithVia
value IntransitiveWithWith
value TransitiveWithWith
value IntransitiveWithWithin
value TransitiveWithWithin
value IntransitiveWithWithout
value TransitiveWithWithout
value ProperNoun
value CommonNoun
value MassNoun
value DeterminerThe
value DeterminerEvery
value DeterminerSome
value DeterminerNo
value DeterminerThis
value DeterminerThat
value DeterminerEach
value DeterminerMost
value Adjective
value Adverb
value Gapped
value ModifierAbout
value ModifierAbove
value ModifierAcross
value ModifierAfter
value ModifierAgainst
value ModifierAlong
value ModifierAmong
value ModifierAround
value ModifierAs
value ModifierAt
value ModifierBefore
value ModifierBehind
value ModifierBelow
value ModifierBeneath
value ModifierBeside
value ModifierBetween
value ModifierBeyond
value ModifierBy
value ModifierDown
value ModifierDuring
value ModifierFor
value ModifierFrom
value ModifierIn
value ModifierInside
value ModifierInto
value ModifierNear
value ModifierOf
value ModifierOff
value ModifierOn
value ModifierOnto
value ModifierOut
value ModifierOver
value ModifierPast
value ModifierRound
value ModifierSince
value ModifierThrough
value ModifierTo
value ModifierToward
value ModifierUnder
value ModifierUntil
value ModifierUp
value ModifierUpon
value ModifierVia
value ModifierWith
value ModifierWithin
value ModifierWithout
