#compdef alloyc
# Completion for zsh: modes, options, models.
_arguments \
  '1:mode:((exec\:"looks for a trace" least\:"looks for a trace with the fewest states" core\:"names facts that leave no trace" replay\:"judges a trace" eval\:"gives the tuples of an expression" lrat\:"checks a refutation" commands\:"lists the commands" make\:"analyses a ring of N nodes"))' \
  '2:file:_files' \
  '3:second file:_files' \
  '--command=[the command, counted from 0]:number:' \
  '--conflicts=[the budget of a search in lemmas]:number:' \
  '--part=[what is written of the answer]:part:(answer cnf proof all)' \
  '--chooser=[which variable the search tries next]:chooser:((0\:"by activity" 1\:"the first that is free"))' \
  '--expr=[the expression of eval]:expression:' \
  '--at=[the position of eval]:number:'
