{ Dilbreth: exercise assignment of option contracts. dilbreth.h says what each call does and answers.
  A list is an array and then its length, which counts from the element handed: `codes, 5` or `codes[2], 3`. A call
  gets the address alone, as from C, so it cannot see how long the array is; nor may that be nil, which an empty
  dynamic array is: hand any other array, with length 0. A text is a pointer to its bytes and then its length. }
unit dilbreth;

{$mode objfpc}
{$linklib libdilbreth.a}
{$linklib c}
{ C arrays are passed by reference: that is meant. }
{$warn 3187 off}

interface

const
  { dilbreth_version_10 below has the same number, and dilbreth.h says where else it stands. }
  DILBRETH_VERSION = 10;
  DILBRETH_WHEEL = Ord('W');
  DILBRETH_PRO_RATA = Ord('P');
  DILBRETH_LOTTERY = Ord('L');
  DILBRETH_REMAINDER_DRAW = Ord('R');
  DILBRETH_SHORTS = 0;
  DILBRETH_LAST_NUMBERS = 1;
  DILBRETH_DEFAULT_INCREMENT = 25;
  DILBRETH_MOST_JOBS = 64;
  DILBRETH_ORDINARY_DAY = 0;
  DILBRETH_FINAL_DAY = 1;
  DILBRETH_LONGEST_EXPLANATION = 50;

{$push}
{ As C lays them out. }
{$packrecords c}
type
  dilbreth_job_answer = record
    refusal, total, further: LongWord;
  end;

  { A series of a book: first counts from 0, method is a letter's number. }
  dilbreth_job = record
    first, positions: LongWord;
    method: Byte;
    exercised, draw, increment: LongWord;
    answer: dilbreth_job_answer;
  end;
{$pop}

{ dilbreth_version of C, a name that the constant has here. }
function dilbreth_archive_version: LongWord; cdecl; external name 'dilbreth_version';

function dilbreth_allocate(method: Byte; exercised, draw, increment: LongWord; form: LongWord;
  const codes: array of LongWord; codes_len: SizeUInt;
  const accounts: array of LongWord; accounts_len: SizeUInt;
  const numbers: array of LongWord; numbers_len: SizeUInt;
  var amounts: array of LongWord; amounts_len: SizeUInt;
  var total, further: LongWord): LongWord; cdecl; external;

function dilbreth_allocate_jobs(
  const accounts: array of LongWord; accounts_len: SizeUInt;
  const shorts: array of LongWord; shorts_len: SizeUInt;
  var jobs: array of dilbreth_job; jobs_len: SizeUInt;
  var amounts: array of LongWord; amounts_len: SizeUInt): LongWord; cdecl; external;

function dilbreth_merge(
  const first_accounts: array of LongWord; first_accounts_len: SizeUInt;
  const first_shorts: array of LongWord; first_shorts_len: SizeUInt;
  const second_accounts: array of LongWord; second_accounts_len: SizeUInt;
  const second_shorts: array of LongWord; second_shorts_len: SizeUInt;
  var accounts: array of LongWord; accounts_len: SizeUInt;
  var shorts: array of LongWord; shorts_len: SizeUInt;
  var positions: SizeUInt; var total: LongWord): LongWord; cdecl; external;

function dilbreth_read(text: PByte; text_len: SizeUInt;
  var method: Byte; var exercised, draw, increment: LongWord; var form: LongWord;
  var codes: array of LongWord; codes_len: SizeUInt;
  var accounts: array of LongWord; accounts_len: SizeUInt;
  var numbers: array of LongWord; numbers_len: SizeUInt;
  var positions: SizeUInt): LongWord; cdecl; external;

function dilbreth_write(method: Byte; exercised, draw, increment: LongWord; form: LongWord;
  const codes: array of LongWord; codes_len: SizeUInt;
  const accounts: array of LongWord; accounts_len: SizeUInt;
  const numbers: array of LongWord; numbers_len: SizeUInt;
  text: PByte; text_len: SizeUInt;
  var written: SizeUInt): LongWord; cdecl; external;

function dilbreth_change(text: PByte; text_len: SizeUInt;
  output: PByte; output_len: SizeUInt;
  var written: SizeUInt): LongWord; cdecl; external;

function dilbreth_respond(text: PByte; text_len: SizeUInt;
  output: PByte; output_len: SizeUInt;
  var written: SizeUInt): LongWord; cdecl; external;

function dilbreth_process_investor(day: LongWord;
  opening_long, opening_short: LongWord;
  opening_purchases, opening_sales: LongWord;
  closing_purchases, closing_sales: LongWord;
  exercised: LongWord;
  var limit, long_after, short_after: LongWord): LongWord; cdecl; external;

function dilbreth_process_market_maker(day: LongWord;
  opening_long, opening_short: LongWord;
  purchases, sales: LongWord;
  var limit: LongWord): LongWord; cdecl; external;

function dilbreth_explain(number: LongWord;
  line: PByte; line_len: SizeUInt): SizeUInt; cdecl; external;

implementation

{ Only an archive of this number has it: no other one links. }
function dilbreth_version_10: LongWord; cdecl; external;

initialization
  dilbreth_version_10;

end.
