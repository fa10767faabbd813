% Pieces of verbs. The spine is black; what hangs on it names the nodes of the spine in white.
class Spine {
  <syn>{
    node (color=black) [cat=s] {
      node (color=black) [cat=vp] {
        node (color=black, mark=anchor) [cat=v]
      }
    }
  }
}

class Subject {
  <syn>{
    node (color=white) [cat=s] {
      node (color=red, mark=subst) [cat=np]
      node (color=white) [cat=vp]
    }
  }
}

class Object {
  <syn>{
    node (color=white) [cat=vp] {
      node (color=white) [cat=v]
      node (color=red, mark=subst) [cat=np]
    }
  }
}

class Intransitive { Spine[]; Subject[] }
class Transitive { Spine[]; Subject[]; Object[] }

value Intransitive
value Transitive
value Subject
