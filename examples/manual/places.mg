% Arguments of verbs at more than one place.
class Spine {
  <syn>{
    node (color=black) [cat=s] {
      node (color=black) [cat=vp] {
        node (color=black, mark=anchor) [cat=v]
      }
    }
  }
}

% the cat sleeps
class CanonicalSubject {
  <syn>{
    node (color=white) [cat=s] {
      node (color=red, mark=subst) [cat=np]
      node (color=white) [cat=vp]
    }
  }
}

% the cat sees a bird
class CanonicalObject {
  <syn>{
    node (color=white) [cat=vp] {
      node (color=white) [cat=v]
      node (color=red, mark=subst) [cat=np]
    }
  }
}

% who sleeps? what does the cat see? The questioned noun phrase stands in front of the sentence.
class Questioned {
  <syn>{
    node (color=red) [cat=s] {
      node (color=red, mark=subst) [cat=np, top=[wh=yes]]
      node (color=white) [cat=s]
    }
  }
}

class Subject { CanonicalSubject[] | Questioned[] }
class Object { CanonicalObject[] | Questioned[] }

class Intransitive { Spine[]; Subject[] }
class Transitive { Spine[]; Subject[]; Object[] }

value Intransitive
value Transitive
