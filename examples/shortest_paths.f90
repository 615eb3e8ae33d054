! The lengths of all shortest ways in a graph of six places, by Floyd's algorithm.
PROGRAM SHORTEST_PATHS
INTEGER, PARAMETER :: N = 6, FAR = 1000000
INTEGER :: WAY(N,N) = FAR, I, J, K
!HPF$ DISTRIBUTE WAY(*,CYCLIC)
FORALL (I = 1:N) WAY(I,I) = 0
WAY(1,2) = 7; WAY(1,3) = 9; WAY(1,6) = 14
WAY(2,3) = 10; WAY(2,4) = 15
WAY(3,4) = 11; WAY(3,6) = 2
WAY(4,5) = 6
WAY(5,6) = 9
FORALL (I = 1:N, J = 1:N, I < J) WAY(J,I) = WAY(I,J)
DO K = 1, N
  FORALL (I = 1:N, J = 1:N) WAY(I,J) = MIN(WAY(I,J), WAY(I,K) + WAY(K,J))
END DO
DO I = 1, N
  PRINT *, I, ':', WAY(I,:)
END DO
PRINT *, 'from 1 to 5:', WAY(1,5), 'the longest:', MAXVAL(WAY)
END PROGRAM SHORTEST_PATHS
