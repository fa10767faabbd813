% A small family of English: the black cat sleeps; what does the cat see? a bird is seen by the cat.

% ---- Nouns and what stands with them

class ProperNoun
declare ?i ?p
{
  <syn>{ node (mark=anchor) [cat=np, bot=[idx=?i, num=sg]] };
  <iface>{ [idx=?i, is=?p] };
  <sem>{ ?p(?i) }
}

class CommonNoun
declare ?i ?n ?p
{
  <syn>{
    node [cat=np, bot=[idx=?i, num=?n]] {
      node (mark=subst) [cat=det, top=[num=?n]]
      node (mark=anchor) [cat=n, top=[idx=?i, num=?n], bot=[idx=?i, num=?n]]
    }
  };
  <iface>{ [idx=?i, is=?p] };
  <sem>{ ?p(?i) }
}

class Determiner
declare ?n
{
  <syn>{ node (mark=anchor) [cat=det, bot=[num=?n]] };
  <iface>{ [num=?n] }
}

class Adjective
declare ?i ?p
{
  <syn>{
    node [cat=n, bot=[idx=?i]] {
      node (mark=anchor) [cat=a]
      node (mark=foot) [cat=n, top=[idx=?i]]
    }
  };
  <iface>{ [idx=?i, is=?p] };
  <sem>{ ?p(?i) }
}

% ---- Spines of verbs

class Spine
export ?e ?n ?v ?vp
declare ?e ?n ?p ?v ?vp
{
  <syn>{
    node (color=black) [cat=s, bot=[mode=ind]] {
      node ?vp (color=black) [cat=vp, top=[mode=ind], bot=[mode=ind, num=?n]] {
        node ?v (color=black, mark=anchor) [cat=v]
      }
    }
  };
  <iface>{ [event=?e, does=?p] };
  <sem>{ ?p(?e) }
}

% The verb is finite and agrees: the cat sees.
class Active
import Spine[]
export ?e
{
  <syn>{ node ?v [top=[mode=ind, num=?n]] }
}

% A form of `be` is finite and agrees, and the verb is a participle: the bird is seen.
class Passive
import Spine[]
export ?e
declare ?be
{
  <syn>{
    node ?v [top=[mode=ppart]];
    node ?be (color=red, mark=coanchor, name=be) [cat=v, top=[mode=ind, num=?n]];
    ?vp -> ?be;
    ?be >> ?v
  }
}

% ---- Places of arguments. Each exports the index of its noun phrase.

class CanonicalSubject
export ?i
declare ?i ?n
{
  <syn>{
    node (color=white) [cat=s] {
      node (color=red, mark=subst) [cat=np, top=[case=nom, idx=?i, num=?n]]
      node (color=white) [cat=vp, bot=[num=?n]]
    }
  }
}

class QuestionedSubject
export ?i
declare ?i ?n
{
  <syn>{
    node (color=red) [cat=s, top=[wh=yes]] {
      node (color=red, mark=subst) [cat=np, top=[case=nom, idx=?i, num=?n, wh=yes]]
      node (color=white) [cat=s] {
        node (color=white) [cat=vp, bot=[num=?n]]
      }
    }
  }
}

class CanonicalObject
export ?i
declare ?i
{
  <syn>{
    node (color=white) [cat=vp] {
      node (color=white) [cat=v]
      node (color=red, mark=subst) [cat=np, top=[case=acc, idx=?i]]
    }
  }
}

class QuestionedObject
export ?i
declare ?i
{
  <syn>{
    node (color=red) [cat=s, top=[wh=yes]] {
      node (color=red, mark=subst) [cat=np, top=[case=acc, idx=?i, wh=yes]]
      node (color=white) [cat=s, top=[inverted=yes]]
    }
  }
}

class ByAgent
export ?i
declare ?i
{
  <syn>{
    node (color=white) [cat=vp] {
      node (color=white) [cat=v]
      ,,, node (color=red) [cat=pp] {
        node (color=red, mark=lex) [cat=by]
        node (color=red, mark=subst) [cat=np, top=[case=acc, idx=?i]]
      }
    }
  }
}

class Subject
export ?i
declare ?i ?canonical ?questioned
{
  ?canonical = CanonicalSubject[]; ?canonical.?i = ?i
  | ?questioned = QuestionedSubject[]; ?questioned.?i = ?i
}

class Object
export ?i
declare ?i ?canonical ?questioned
{
  ?canonical = CanonicalObject[]; ?canonical.?i = ?i
  | ?questioned = QuestionedObject[]; ?questioned.?i = ?i
}

% ---- Families of verbs

class Intransitive
import Active[]
declare ?subject
{
  ?subject = Subject[];
  <sem>{ agent(?e, ?subject.?i) }
}

class TransitiveActive
import Active[]
declare ?subject ?object
{
  ?subject = Subject[];
  ?object = Object[];
  <sem>{ agent(?e, ?subject.?i) patient(?e, ?object.?i) }
}

class TransitivePassive
import Passive[]
declare ?subject ?by
{
  ?subject = Subject[];
  <sem>{ patient(?e, ?subject.?i) };
  { ?by = ByAgent[]; <sem>{ agent(?e, ?by.?i) } | { } }
}

class Transitive { TransitiveActive[] | TransitivePassive[] }

value ProperNoun
value CommonNoun
value Determiner
value Adjective
value Intransitive
value Transitive
