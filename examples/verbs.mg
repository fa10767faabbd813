% A small family of verbs: where their subjects and objects may stand.
%
% A spine of black nodes carries the verb. Each place of an argument is a class of its own, which says
% in white how it hangs on the spine and in red what it adds. A class that offers several places joins
% them by `|`, and a family puts together the spine and what its verbs take. Each way of filling all
% places is one expansion. Where two ways can't stand together, it has no trees.

type CAT = { s, vp, v, np }
property mark : MARK
feature cat : CAT
use color with () dims (syn)

% ---- The spine

% A sentence, its verb phrase and the verb. The word in its lexicon entry says what happens (?p).

class Spine
export ?e
declare ?s ?vp ?v ?e ?p ?m ?n
{
  <syn>{
    node ?s (color=black) [cat=s, bot=[mode=?m]] {
      node ?vp (color=black) [cat=vp, top=[mode=?m, num=?n], bot=[mode=?m, num=?n]] {
        node ?v (color=black, mark=anchor) [cat=v, top=[mode=?m, num=?n]]
      }
    }
  };
  <iface>{ [event=?e] };
  <sem>{ ?p(?e) }
}

% ---- Subjects

% Before the verb phrase: the cat sleeps.

class CanonicalSubject
export ?i
declare ?s ?np ?vp ?i ?n
{
  <syn>{
    node ?s (color=white) [cat=s] {
      node ?np (color=red, mark=subst) [cat=np, top=[case=nom, num=?n, idx=?i]]
      node ?vp (color=white) [cat=vp, top=[num=?n]]
    }
  }
}

% In front of the sentence, which is a question then: who sleeps?

class QuestionedSubject
export ?i
declare ?q ?np ?s ?vp ?i ?n
{
  <syn>{
    node ?q (color=red) [cat=s, top=[wh=yes]] {
      node ?np (color=red, mark=subst) [cat=np, top=[case=nom, num=?n, idx=?i, wh=yes]]
      node ?s (color=white) [cat=s] { ... node ?vp (color=white) [cat=vp, top=[num=?n]] }
    }
  }
}

% The noun that a relative clause stands beside: the cat that sleeps.

class RelativeSubject
export ?i
declare ?r ?np ?c ?s ?vp ?i ?n
{
  <syn>{
    node ?r (color=red) [cat=np, top=[num=?n, idx=?i], bot=[num=?n, idx=?i]] {
      node ?np (color=red, mark=foot) [cat=np, top=[num=?n, idx=?i]]
      node ?c (color=red, mark=lex) [cat=that]
      node ?s (color=white) [cat=s] { node ?vp (color=white) [cat=vp, top=[num=?n]] }
    }
  }
}

class Subject
export ?i
declare ?i ?canonical ?questioned ?relative
{
  ?canonical = CanonicalSubject[]; ?canonical.?i = ?i
  | ?questioned = QuestionedSubject[]; ?questioned.?i = ?i
  | ?relative = RelativeSubject[]; ?relative.?i = ?i
}

% ---- Objects

% Behind the verb: the cat sees a bird.

class CanonicalObject
export ?i
declare ?vp ?v ?np ?i
{
  <syn>{
    node ?vp (color=white) [cat=vp] {
      node ?v (color=white) [cat=v]
      node ?np (color=red, mark=subst) [cat=np, top=[case=acc, idx=?i]]
    }
  }
}

% In front of the sentence: what does the cat see?

class QuestionedObject
export ?i
declare ?q ?np ?s ?i
{
  <syn>{
    node ?q (color=red) [cat=s, top=[wh=yes]] {
      node ?np (color=red, mark=subst) [cat=np, top=[case=acc, idx=?i, wh=yes]]
      node ?s (color=white) [cat=s, top=[inverted=yes]]
    }
  }
}

class Object
export ?i
declare ?i ?canonical ?questioned
{
  ?canonical = CanonicalObject[]; ?canonical.?i = ?i
  | ?questioned = QuestionedObject[]; ?questioned.?i = ?i
}

% ---- Families

class Intransitive
import Spine[]
declare ?subject
{
  ?subject = Subject[];
  <sem>{ agent(?e, ?subject.?i) }
}

class Transitive
import Spine[]
declare ?subject ?object
{
  ?subject = Subject[];
  ?object = Object[];
  <sem>{ agent(?e, ?subject.?i) patient(?e, ?object.?i) }
}

value Intransitive
value Transitive
