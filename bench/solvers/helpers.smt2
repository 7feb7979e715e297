; What goals may apply besides the operations of RISC-V. A number stands for a word.

; A word that is an int: its low 32 bits with their sign extended, as the calling convention has it of `int` and of `unsigned` too.
(define-fun is_int ((a Word)) Bool (= (rv_sx4 a) a))
(define-fun bit ((a Word) (i Word)) Bool (= ((_ extract 0 0) (bvlshr a i)) #b1))

; Whether x is one of the n addresses from a on; whether n bytes from a on and m bytes from b on have no address in common.
(define-fun inside ((a Word) (n Word) (x Word)) Bool (bvult (bvsub x a) n))
(define-fun apart ((a Word) (n Word) (b Word) (m Word)) Bool (and (bvuge (bvsub b a) n) (bvuge (bvsub a b) m)))

; The eight bytes from a on, the lowest first.
(define-fun word_at ((m Memory) (a Word)) Word (concat
  (select m (bvadd a 7)) (select m (bvadd a 6)) (select m (bvadd a 5)) (select m (bvadd a 4))
  (select m (bvadd a 3)) (select m (bvadd a 2)) (select m (bvadd a 1)) (select m a)))

; How many ones a word has in its low bits.
(define-fun ones4 ((a Word)) Word (bvadd (bvand a 1) (bvand (bvlshr a 1) 1) (bvand (bvlshr a 2) 1) (bvand (bvlshr a 3) 1)))
(define-fun ones16 ((a Word)) Word (bvadd (ones4 a) (ones4 (bvlshr a 4)) (ones4 (bvlshr a 8)) (ones4 (bvlshr a 12))))
(define-fun ones32 ((a Word)) Word (bvadd (ones16 a) (ones16 (bvlshr a 16))))
(define-fun ones64 ((a Word)) Word (bvadd (ones32 a) (ones32 (bvlshr a 32))))

; CRCs bit by bit: of 16 bits, the high bit first, and of 32 bits, the low bit first.
(define-fun crc16_step ((c Word)) Word (bvxor (bvand (bvshl c 1) 0xffff) (ite (bit c 15) 0x1021 0)))
(define-fun crc16_steps ((c Word)) Word
  (crc16_step (crc16_step (crc16_step (crc16_step (crc16_step (crc16_step (crc16_step (crc16_step c)))))))))
(define-fun crc32_step ((c Word)) Word (bvxor (bvlshr c 1) (ite (bit c 0) 0xedb88320 0)))
(define-fun crc32_steps ((c Word)) Word
  (crc32_step (crc32_step (crc32_step (crc32_step (crc32_step (crc32_step (crc32_step (crc32_step c)))))))))

; The place between two others; whether the numbers at two places of those from p on are in order, as they are where all rise.
(define-fun middle ((low Word) (high Word)) Word (bvadd low (bvlshr (bvsub high low) 1)))
(define-fun in_order ((m Memory) (p Word) (i Word) (k Word)) Bool (and
  (=> (bvule i k) (bvsle (word_at m (bvadd p (bvshl i 3))) (word_at m (bvadd p (bvshl k 3)))))
  (=> (bvule k i) (bvsle (word_at m (bvadd p (bvshl k 3))) (word_at m (bvadd p (bvshl i 3)))))))
