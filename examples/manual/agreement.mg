% The subject agrees with the verb, and is in the nominative.
class Spine
declare ?m ?n
{
  <syn>{
    node (color=black) [cat=s, bot=[mode=?m]] {
      node (color=black) [cat=vp, top=[mode=?m], bot=[mode=?m, num=?n]] {
        node (color=black, mark=anchor) [cat=v, top=[mode=?m, num=?n]]
      }
    }
  }
}

class Subject
declare ?k
{
  <syn>{
    node (color=white) [cat=s] {
      node (color=red, mark=subst) [cat=np, top=[case=nom, num=?k]]
      node (color=white) [cat=vp, bot=[num=?k]]
    }
  }
}

class Intransitive { Spine[]; Subject[] }
value Intransitive
