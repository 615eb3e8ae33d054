! The sieve of Eratosthenes: the multiples of each prime are crossed out, by sections with a stride, in an array that is
! dealt out to the nodes element by element.
PROGRAM SIEVE
  INTEGER, PARAMETER :: N = 100
  INTEGER :: PRIME(N) = 1, LIST(N), I, COUNTED
!HPF$ DISTRIBUTE PRIME(CYCLIC)
!HPF$ ALIGN LIST(I) WITH PRIME(I)
  PRIME(1) = 0
  DO I = 2, N
    IF (I * I > N) EXIT
    IF (PRIME(I) == 0) CYCLE
    PRIME(I*I:N:I) = 0
  END DO
  COUNTED = 0
  DO I = 1, N
    IF (PRIME(I) == 1) THEN
      COUNTED = COUNTED + 1
      LIST(COUNTED) = I
    END IF
  END DO
  PRINT *, COUNTED, 'primes:', LIST(1:COUNTED)
  PRINT *, 'the last gap is', LIST(COUNTED) - LIST(COUNTED-1)
END PROGRAM SIEVE
