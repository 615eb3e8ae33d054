! The Walsh-Hadamard transform of a square, as a fast Fourier transform is done: along rows while each node has whole rows, and
! along columns once REDISTRIBUTE has given each node whole columns. Done twice it multiplies each element by their number.
PROGRAM WALSH_HADAMARD
INTEGER, PARAMETER :: LEVELS = 3, N = 2**LEVELS
INTEGER :: A(N,N), B(N,N), I, J, K, L, S, T
!HPF$ PROCESSORS P(NUMBER_OF_PROCESSORS())
!HPF$ DYNAMIC A, B
!HPF$ DISTRIBUTE (BLOCK,*) ONTO P :: A, B
FORALL (I = 1:N, J = 1:N) A(I,J) = I * I - 3 * J
DO T = 1, 2
  DO L = 0, LEVELS - 1
    S = 2**L
    DO K = 1, N, 2 * S
      B(:,K:K+S-1) = A(:,K:K+S-1) + A(:,K+S:K+2*S-1)
      B(:,K+S:K+2*S-1) = A(:,K:K+S-1) - A(:,K+S:K+2*S-1)
    END DO
    A = B
  END DO
!HPF$ REDISTRIBUTE (*,BLOCK) ONTO P :: A, B
  DO L = 0, LEVELS - 1
    S = 2**L
    DO K = 1, N, 2 * S
      B(K:K+S-1,:) = A(K:K+S-1,:) + A(K+S:K+2*S-1,:)
      B(K+S:K+2*S-1,:) = A(K:K+S-1,:) - A(K+S:K+2*S-1,:)
    END DO
    A = B
  END DO
!HPF$ REDISTRIBUTE (BLOCK,*) ONTO P :: A, B
  PRINT *, 'sum', A(1,1), 'first row', A(1,:)
END DO
A = A / (N * N)
FORALL (I = 1:N, J = 1:N) B(I,J) = I * I - 3 * J
PRINT *, 'elements that came back', COUNT(A == B)
END PROGRAM WALSH_HADAMARD
