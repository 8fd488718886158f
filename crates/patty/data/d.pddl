(define (domain d) (:predicates (g) (q)) (:action a :precondition (q) :effect (g)))
