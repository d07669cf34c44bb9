; One letter from an office in one city to an office in the other.
(define (problem two-cities)
  (:domain logistics)
  (:objects lyon oslo - city
    lyon-office oslo-office - place
    lyon-airport oslo-airport - airport
    lyon-truck oslo-truck - truck
    plane - airplane
    letter - package)
  (:init (in-city lyon-office lyon) (in-city lyon-airport lyon)
    (in-city oslo-office oslo) (in-city oslo-airport oslo)
    (at lyon-truck lyon-office) (at oslo-truck oslo-airport) (at plane lyon-airport)
    (at letter lyon-office))
  (:goal (at letter oslo-office)))
