; Trucks take parcels from place to place, and burn fuel by the length of the road.
(define (domain delivery)
  (:requirements :typing :fluents)
  (:types place truck parcel)
  (:predicates
    (at ?t - truck ?p - place)
    (waits ?c - parcel ?p - place)
    (aboard ?c - parcel ?t - truck))
  (:functions
    (fuel ?t - truck)
    (tank ?t - truck)
    (weight ?c - parcel)
    (freight ?t - truck)
    (capacity ?t - truck)
    (road ?p ?q - place) - number
    (driven))

  (:action drive
    :parameters (?t - truck ?p ?q - place)
    :precondition (and (at ?t ?p) (>= (fuel ?t) (* 0.25 (road ?p ?q))))
    :effect (and (not (at ?t ?p)) (at ?t ?q)
      (decrease (fuel ?t) (* 0.25 (road ?p ?q)))
      (increase (driven) (road ?p ?q))))

  (:action load
    :parameters (?c - parcel ?t - truck ?p - place)
    :precondition (and (at ?t ?p) (waits ?c ?p)
      (<= (+ (freight ?t) (weight ?c)) (capacity ?t)))
    :effect (and (not (waits ?c ?p)) (aboard ?c ?t) (increase (freight ?t) (weight ?c))))

  (:action unload
    :parameters (?c - parcel ?t - truck ?p - place)
    :precondition (and (at ?t ?p) (aboard ?c ?t))
    :effect (and (not (aboard ?c ?t)) (waits ?c ?p) (decrease (freight ?t) (weight ?c))))

  ; One litre, as often as the tank has room for it.
  (:action refuel
    :parameters (?t - truck ?p - place)
    :precondition (and (at ?t ?p) (<= (+ (fuel ?t) 1) (tank ?t)))
    :effect (increase (fuel ?t) 1)))
