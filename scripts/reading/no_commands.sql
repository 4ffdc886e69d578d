;;  ;	;
;;
-- a comment alone is no command
;/* nor is this; */;/* /* */ ; */
  ; -- ;
