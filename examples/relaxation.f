C     A plate whose upper edge is kept at 10000: each inner point
C     becomes the mean of its four neighbours, again and again. On a
C     grid of 2x2 nodes each node has a quarter of the plate, and gets
C     the points beside it from its neighbours.
      PROGRAM RELAXATION
      INTEGER, PARAMETER :: N = 12
      INTEGER :: A(N,N), T
CHPF$ DISTRIBUTE A(BLOCK,BLOCK)
      A(1,:) = 10000
      DO T = 1, 50
        A(2:N-1,2:N-1) = (A(1:N-2,2:N-1) + A(3:N,2:N-1)
     &                  + A(2:N-1,1:N-2) + A(2:N-1,3:N)) / 4
      END DO
      PRINT *, 'total', SUM(A),
     &         'greatest inside', MAXVAL(A(2:N-1,2:N-1))
      PRINT *, A(:,N/2)
      END PROGRAM RELAXATION
