% Verbs with an interface and a meaning.
class Spine
export ?e
declare ?m ?n ?e ?p
{
  <syn>{
    node (color=black) [cat=s, bot=[mode=?m]] {
      node (color=black) [cat=vp, top=[mode=?m], bot=[mode=?m, num=?n]] {
        node (color=black, mark=anchor) [cat=v, top=[mode=?m, num=?n]]
      }
    }
  };
  <iface>{ [event=?e, does=?p] };
  <sem>{ ?p(?e) }
}

class Subject
export ?i
declare ?i ?k
{
  <syn>{
    node (color=white) [cat=s] {
      node (color=red, mark=subst) [cat=np, top=[case=nom, idx=?i, num=?k]]
      node (color=white) [cat=vp, bot=[num=?k]]
    }
  }
}

class Object
export ?i
declare ?i
{
  <syn>{
    node (color=white) [cat=vp] {
      node (color=white) [cat=v]
      node (color=red, mark=subst) [cat=np, top=[case=acc, idx=?i]]
    }
  }
}

class Transitive
import Spine[]
declare ?subject ?object
{
  ?subject = Subject[];
  ?object = Object[];
  <sem>{ agent(?e, ?subject.?i) patient(?e, ?object.?i) }
}

value Transitive
