-- Every nest of up to three temporal operators of one operand, over one state, two and three.
var sig A {}
run { after some A } for 1 but 1 steps
run { always some A } for 1 but 1 steps
run { eventually some A } for 1 but 1 steps
run { before some A } for 1 but 1 steps
run { historically some A } for 1 but 1 steps
run { once some A } for 1 but 1 steps
run { after after some A } for 1 but 1 steps
run { after always some A } for 1 but 1 steps
run { after eventually some A } for 1 but 1 steps
run { after before some A } for 1 but 1 steps
run { after historically some A } for 1 but 1 steps
run { after once some A } for 1 but 1 steps
run { always after some A } for 1 but 1 steps
run { always always some A } for 1 but 1 steps
run { always eventually some A } for 1 but 1 steps
run { always before some A } for 1 but 1 steps
run { always historically some A } for 1 but 1 steps
run { always once some A } for 1 but 1 steps
run { eventually after some A } for 1 but 1 steps
run { eventually always some A } for 1 but 1 steps
run { eventually eventually some A } for 1 but 1 steps
run { eventually before some A } for 1 but 1 steps
run { eventually historically some A } for 1 but 1 steps
run { eventually once some A } for 1 but 1 steps
run { before after some A } for 1 but 1 steps
run { before always some A } for 1 but 1 steps
run { before eventually some A } for 1 but 1 steps
run { before before some A } for 1 but 1 steps
run { before historically some A } for 1 but 1 steps
run { before once some A } for 1 but 1 steps
run { historically after some A } for 1 but 1 steps
run { historically always some A } for 1 but 1 steps
run { historically eventually some A } for 1 but 1 steps
run { historically before some A } for 1 but 1 steps
run { historically historically some A } for 1 but 1 steps
run { historically once some A } for 1 but 1 steps
run { once after some A } for 1 but 1 steps
run { once always some A } for 1 but 1 steps
run { once eventually some A } for 1 but 1 steps
run { once before some A } for 1 but 1 steps
run { once historically some A } for 1 but 1 steps
run { once once some A } for 1 but 1 steps
run { after some A } for 1 but 2 steps
run { always some A } for 1 but 2 steps
run { eventually some A } for 1 but 2 steps
run { before some A } for 1 but 2 steps
run { historically some A } for 1 but 2 steps
run { once some A } for 1 but 2 steps
run { after after some A } for 1 but 2 steps
run { after always some A } for 1 but 2 steps
run { after eventually some A } for 1 but 2 steps
run { after before some A } for 1 but 2 steps
run { after historically some A } for 1 but 2 steps
run { after once some A } for 1 but 2 steps
run { always after some A } for 1 but 2 steps
run { always always some A } for 1 but 2 steps
run { always eventually some A } for 1 but 2 steps
run { always before some A } for 1 but 2 steps
run { always historically some A } for 1 but 2 steps
run { always once some A } for 1 but 2 steps
run { eventually after some A } for 1 but 2 steps
run { eventually always some A } for 1 but 2 steps
run { eventually eventually some A } for 1 but 2 steps
run { eventually before some A } for 1 but 2 steps
run { eventually historically some A } for 1 but 2 steps
run { eventually once some A } for 1 but 2 steps
run { before after some A } for 1 but 2 steps
run { before always some A } for 1 but 2 steps
run { before eventually some A } for 1 but 2 steps
run { before before some A } for 1 but 2 steps
run { before historically some A } for 1 but 2 steps
run { before once some A } for 1 but 2 steps
run { historically after some A } for 1 but 2 steps
run { historically always some A } for 1 but 2 steps
run { historically eventually some A } for 1 but 2 steps
run { historically before some A } for 1 but 2 steps
run { historically historically some A } for 1 but 2 steps
run { historically once some A } for 1 but 2 steps
run { once after some A } for 1 but 2 steps
run { once always some A } for 1 but 2 steps
run { once eventually some A } for 1 but 2 steps
run { once before some A } for 1 but 2 steps
run { once historically some A } for 1 but 2 steps
run { once once some A } for 1 but 2 steps
run { after some A } for 1 but 3 steps
run { always some A } for 1 but 3 steps
run { eventually some A } for 1 but 3 steps
run { before some A } for 1 but 3 steps
run { historically some A } for 1 but 3 steps
run { once some A } for 1 but 3 steps
run { after after some A } for 1 but 3 steps
run { after always some A } for 1 but 3 steps
run { after eventually some A } for 1 but 3 steps
run { after before some A } for 1 but 3 steps
run { after historically some A } for 1 but 3 steps
run { after once some A } for 1 but 3 steps
run { always after some A } for 1 but 3 steps
run { always always some A } for 1 but 3 steps
run { always eventually some A } for 1 but 3 steps
run { always before some A } for 1 but 3 steps
run { always historically some A } for 1 but 3 steps
run { always once some A } for 1 but 3 steps
run { eventually after some A } for 1 but 3 steps
run { eventually always some A } for 1 but 3 steps
run { eventually eventually some A } for 1 but 3 steps
run { eventually before some A } for 1 but 3 steps
run { eventually historically some A } for 1 but 3 steps
run { eventually once some A } for 1 but 3 steps
run { before after some A } for 1 but 3 steps
run { before always some A } for 1 but 3 steps
run { before eventually some A } for 1 but 3 steps
run { before before some A } for 1 but 3 steps
run { before historically some A } for 1 but 3 steps
run { before once some A } for 1 but 3 steps
run { historically after some A } for 1 but 3 steps
run { historically always some A } for 1 but 3 steps
run { historically eventually some A } for 1 but 3 steps
run { historically before some A } for 1 but 3 steps
run { historically historically some A } for 1 but 3 steps
run { historically once some A } for 1 but 3 steps
run { once after some A } for 1 but 3 steps
run { once always some A } for 1 but 3 steps
run { once eventually some A } for 1 but 3 steps
run { once before some A } for 1 but 3 steps
run { once historically some A } for 1 but 3 steps
run { once once some A } for 1 but 3 steps
run { after after after some A } for 1 but 3 steps
run { after after always some A } for 1 but 3 steps
run { after after eventually some A } for 1 but 3 steps
run { after after before some A } for 1 but 3 steps
run { after after historically some A } for 1 but 3 steps
run { after after once some A } for 1 but 3 steps
run { after always after some A } for 1 but 3 steps
run { after always always some A } for 1 but 3 steps
run { after always eventually some A } for 1 but 3 steps
run { after always before some A } for 1 but 3 steps
run { after always historically some A } for 1 but 3 steps
run { after always once some A } for 1 but 3 steps
run { after eventually after some A } for 1 but 3 steps
run { after eventually always some A } for 1 but 3 steps
run { after eventually eventually some A } for 1 but 3 steps
run { after eventually before some A } for 1 but 3 steps
run { after eventually historically some A } for 1 but 3 steps
run { after eventually once some A } for 1 but 3 steps
run { after before after some A } for 1 but 3 steps
run { after before always some A } for 1 but 3 steps
run { after before eventually some A } for 1 but 3 steps
run { after before before some A } for 1 but 3 steps
run { after before historically some A } for 1 but 3 steps
run { after before once some A } for 1 but 3 steps
run { after historically after some A } for 1 but 3 steps
run { after historically always some A } for 1 but 3 steps
run { after historically eventually some A } for 1 but 3 steps
run { after historically before some A } for 1 but 3 steps
run { after historically historically some A } for 1 but 3 steps
run { after historically once some A } for 1 but 3 steps
run { after once after some A } for 1 but 3 steps
run { after once always some A } for 1 but 3 steps
run { after once eventually some A } for 1 but 3 steps
run { after once before some A } for 1 but 3 steps
run { after once historically some A } for 1 but 3 steps
run { after once once some A } for 1 but 3 steps
run { always after after some A } for 1 but 3 steps
run { always after always some A } for 1 but 3 steps
run { always after eventually some A } for 1 but 3 steps
run { always after before some A } for 1 but 3 steps
run { always after historically some A } for 1 but 3 steps
run { always after once some A } for 1 but 3 steps
run { always always after some A } for 1 but 3 steps
run { always always always some A } for 1 but 3 steps
run { always always eventually some A } for 1 but 3 steps
run { always always before some A } for 1 but 3 steps
run { always always historically some A } for 1 but 3 steps
run { always always once some A } for 1 but 3 steps
run { always eventually after some A } for 1 but 3 steps
run { always eventually always some A } for 1 but 3 steps
run { always eventually eventually some A } for 1 but 3 steps
run { always eventually before some A } for 1 but 3 steps
run { always eventually historically some A } for 1 but 3 steps
run { always eventually once some A } for 1 but 3 steps
run { always before after some A } for 1 but 3 steps
run { always before always some A } for 1 but 3 steps
run { always before eventually some A } for 1 but 3 steps
run { always before before some A } for 1 but 3 steps
run { always before historically some A } for 1 but 3 steps
run { always before once some A } for 1 but 3 steps
run { always historically after some A } for 1 but 3 steps
run { always historically always some A } for 1 but 3 steps
run { always historically eventually some A } for 1 but 3 steps
run { always historically before some A } for 1 but 3 steps
run { always historically historically some A } for 1 but 3 steps
run { always historically once some A } for 1 but 3 steps
run { always once after some A } for 1 but 3 steps
run { always once always some A } for 1 but 3 steps
run { always once eventually some A } for 1 but 3 steps
run { always once before some A } for 1 but 3 steps
run { always once historically some A } for 1 but 3 steps
run { always once once some A } for 1 but 3 steps
run { eventually after after some A } for 1 but 3 steps
run { eventually after always some A } for 1 but 3 steps
run { eventually after eventually some A } for 1 but 3 steps
run { eventually after before some A } for 1 but 3 steps
run { eventually after historically some A } for 1 but 3 steps
run { eventually after once some A } for 1 but 3 steps
run { eventually always after some A } for 1 but 3 steps
run { eventually always always some A } for 1 but 3 steps
run { eventually always eventually some A } for 1 but 3 steps
run { eventually always before some A } for 1 but 3 steps
run { eventually always historically some A } for 1 but 3 steps
run { eventually always once some A } for 1 but 3 steps
run { eventually eventually after some A } for 1 but 3 steps
run { eventually eventually always some A } for 1 but 3 steps
run { eventually eventually eventually some A } for 1 but 3 steps
run { eventually eventually before some A } for 1 but 3 steps
run { eventually eventually historically some A } for 1 but 3 steps
run { eventually eventually once some A } for 1 but 3 steps
run { eventually before after some A } for 1 but 3 steps
run { eventually before always some A } for 1 but 3 steps
run { eventually before eventually some A } for 1 but 3 steps
run { eventually before before some A } for 1 but 3 steps
run { eventually before historically some A } for 1 but 3 steps
run { eventually before once some A } for 1 but 3 steps
run { eventually historically after some A } for 1 but 3 steps
run { eventually historically always some A } for 1 but 3 steps
run { eventually historically eventually some A } for 1 but 3 steps
run { eventually historically before some A } for 1 but 3 steps
run { eventually historically historically some A } for 1 but 3 steps
run { eventually historically once some A } for 1 but 3 steps
run { eventually once after some A } for 1 but 3 steps
run { eventually once always some A } for 1 but 3 steps
run { eventually once eventually some A } for 1 but 3 steps
run { eventually once before some A } for 1 but 3 steps
run { eventually once historically some A } for 1 but 3 steps
run { eventually once once some A } for 1 but 3 steps
run { before after after some A } for 1 but 3 steps
run { before after always some A } for 1 but 3 steps
run { before after eventually some A } for 1 but 3 steps
run { before after before some A } for 1 but 3 steps
run { before after historically some A } for 1 but 3 steps
run { before after once some A } for 1 but 3 steps
run { before always after some A } for 1 but 3 steps
run { before always always some A } for 1 but 3 steps
run { before always eventually some A } for 1 but 3 steps
run { before always before some A } for 1 but 3 steps
run { before always historically some A } for 1 but 3 steps
run { before always once some A } for 1 but 3 steps
run { before eventually after some A } for 1 but 3 steps
run { before eventually always some A } for 1 but 3 steps
run { before eventually eventually some A } for 1 but 3 steps
run { before eventually before some A } for 1 but 3 steps
run { before eventually historically some A } for 1 but 3 steps
run { before eventually once some A } for 1 but 3 steps
run { before before after some A } for 1 but 3 steps
run { before before always some A } for 1 but 3 steps
run { before before eventually some A } for 1 but 3 steps
run { before before before some A } for 1 but 3 steps
run { before before historically some A } for 1 but 3 steps
run { before before once some A } for 1 but 3 steps
run { before historically after some A } for 1 but 3 steps
run { before historically always some A } for 1 but 3 steps
run { before historically eventually some A } for 1 but 3 steps
run { before historically before some A } for 1 but 3 steps
run { before historically historically some A } for 1 but 3 steps
run { before historically once some A } for 1 but 3 steps
run { before once after some A } for 1 but 3 steps
run { before once always some A } for 1 but 3 steps
run { before once eventually some A } for 1 but 3 steps
run { before once before some A } for 1 but 3 steps
run { before once historically some A } for 1 but 3 steps
run { before once once some A } for 1 but 3 steps
run { historically after after some A } for 1 but 3 steps
run { historically after always some A } for 1 but 3 steps
run { historically after eventually some A } for 1 but 3 steps
run { historically after before some A } for 1 but 3 steps
run { historically after historically some A } for 1 but 3 steps
run { historically after once some A } for 1 but 3 steps
run { historically always after some A } for 1 but 3 steps
run { historically always always some A } for 1 but 3 steps
run { historically always eventually some A } for 1 but 3 steps
run { historically always before some A } for 1 but 3 steps
run { historically always historically some A } for 1 but 3 steps
run { historically always once some A } for 1 but 3 steps
run { historically eventually after some A } for 1 but 3 steps
run { historically eventually always some A } for 1 but 3 steps
run { historically eventually eventually some A } for 1 but 3 steps
run { historically eventually before some A } for 1 but 3 steps
run { historically eventually historically some A } for 1 but 3 steps
run { historically eventually once some A } for 1 but 3 steps
run { historically before after some A } for 1 but 3 steps
run { historically before always some A } for 1 but 3 steps
run { historically before eventually some A } for 1 but 3 steps
run { historically before before some A } for 1 but 3 steps
run { historically before historically some A } for 1 but 3 steps
run { historically before once some A } for 1 but 3 steps
run { historically historically after some A } for 1 but 3 steps
run { historically historically always some A } for 1 but 3 steps
run { historically historically eventually some A } for 1 but 3 steps
run { historically historically before some A } for 1 but 3 steps
run { historically historically historically some A } for 1 but 3 steps
run { historically historically once some A } for 1 but 3 steps
run { historically once after some A } for 1 but 3 steps
run { historically once always some A } for 1 but 3 steps
run { historically once eventually some A } for 1 but 3 steps
run { historically once before some A } for 1 but 3 steps
run { historically once historically some A } for 1 but 3 steps
run { historically once once some A } for 1 but 3 steps
run { once after after some A } for 1 but 3 steps
run { once after always some A } for 1 but 3 steps
run { once after eventually some A } for 1 but 3 steps
run { once after before some A } for 1 but 3 steps
run { once after historically some A } for 1 but 3 steps
run { once after once some A } for 1 but 3 steps
run { once always after some A } for 1 but 3 steps
run { once always always some A } for 1 but 3 steps
run { once always eventually some A } for 1 but 3 steps
run { once always before some A } for 1 but 3 steps
run { once always historically some A } for 1 but 3 steps
run { once always once some A } for 1 but 3 steps
run { once eventually after some A } for 1 but 3 steps
run { once eventually always some A } for 1 but 3 steps
run { once eventually eventually some A } for 1 but 3 steps
run { once eventually before some A } for 1 but 3 steps
run { once eventually historically some A } for 1 but 3 steps
run { once eventually once some A } for 1 but 3 steps
run { once before after some A } for 1 but 3 steps
run { once before always some A } for 1 but 3 steps
run { once before eventually some A } for 1 but 3 steps
run { once before before some A } for 1 but 3 steps
run { once before historically some A } for 1 but 3 steps
run { once before once some A } for 1 but 3 steps
run { once historically after some A } for 1 but 3 steps
run { once historically always some A } for 1 but 3 steps
run { once historically eventually some A } for 1 but 3 steps
run { once historically before some A } for 1 but 3 steps
run { once historically historically some A } for 1 but 3 steps
run { once historically once some A } for 1 but 3 steps
run { once once after some A } for 1 but 3 steps
run { once once always some A } for 1 but 3 steps
run { once once eventually some A } for 1 but 3 steps
run { once once before some A } for 1 but 3 steps
run { once once historically some A } for 1 but 3 steps
run { once once once some A } for 1 but 3 steps
