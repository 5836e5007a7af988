//! What the manual shows in the sections that document 01 names and in its
//! annexes, made whole texts in words of our own, with the answer that document
//! 01 gives: much of it lies outside the part and is refused.

use super::Stored;

/// Section 3.2: names, strings, numbers, properties, explanations, comments.
const SYMBOLS: [(u8, &str); 17] = [
    (0, "DOMAIN name_1=TEXT;Name_1=TEXT;"),
    (2, "DOMAIN ^_name=TEXT;"),
    (5, "DOMAIN ^1name=TEXT;"),
    (2, "DOMAIN caf^\u{E9}=TEXT;"),
    (0, "DOMAIN A=5134523..5134523;B=1..23;"),
    (0, "DOMAIN A=-435..+5769;"),
    (5, "DOMAIN A=0.123456^e4..0.2;"),
    (5, "DOMAIN A=-0.123^e-2..0.123;"),
    (5, "DOMAIN A=0.1..0.1^e7;"),
    (0, "CLASS A(ABSTRACT)=END A;"),
    (5, "CLASS A(^EXTENDED,FINAL)=END A;"),
    (5, "CLASS A(^)=END A;"),
    (5, "CLASS A(ABSTRACT ^FINAL)=END A;"),
    (2, "^// what is meant // DOMAIN A=TEXT;"),
    (0, "!! to the end of the line; DOMAIN\nDOMAIN A=TEXT;"),
    (0, "/* over\n   two lines, !! one in it */DOMAIN A=TEXT;"),
    (5, "/* outer /* inner */ ^*/"),
];

/// Section 3.5: models, topics, classes, name spaces.
const MODELS: [(u8, &str); 21] = [
    (6, "^IMPORTS Units;"),
    (6, "^CHARSET \"UTF-8\";"),
    (5, "UNIT foot^=1;"),
    (5, "UNIT Metre^[m];"),
    (0, "UNIT Length(ABSTRACT);Metre EXTENDS Length;"),
    (6, "^FUNCTION f(a:TEXT):TEXT;"),
    (6, "^CONTEXT c=TEXT;"),
    (
        0,
        "TOPIC T=CLASS A=END A;STRUCTURE B=END B;DOMAIN D=TEXT;END T;",
    ),
    (5, "TOPIC T^(ABSTRACT)=END T;"),
    (5, "TOPIC T1=END T1;TOPIC T2 ^EXTENDS T1=END T2;"),
    (6, "TOPIC T=^OID AS TEXT;END T;"),
    (6, "TOPIC T=^DEPENDS ON T;END T;"),
    (6, "TOPIC T=^ASSOCIATION a=END a;END T;"),
    (6, "^VIEW TOPIC T=END T;"),
    (6, "CLASS C=^NO OID;END C;"),
    (6, "CLASS C=a:TEXT;^UNIQUE a;END C;"),
    (6, "CLASS C=^PARAMETER p:TEXT;END C;"),
    (
        0,
        "TOPIC T=CLASS A=END A;END T;CLASS A EXTENDS M.T.A=END A;",
    ),
    (9, "TOPIC T=CLASS ^T=END T;END T;"),
    (10, "TOPIC T=CLASS A=END A;END T;CLASS B EXTENDS ^A=END B;"),
    (
        0,
        "STRUCTURE S=a:TEXT;END S;STRUCTURE R EXTENDS S=ATTRIBUTE a(EXTENDED):TEXT*5;END R;",
    ),
];

/// Sections 3.6.1 and 3.6.2: attributes.
const ATTRIBUTES: [(u8, &str); 16] = [
    (6, "CLASS C=^CONTINUOUS SUBDIVISION a:0..59;END C;"),
    (6, "CLASS C=^SUBDIVISION a:0..59;END C;"),
    (5, "CLASS C=a(^ABSTRACT):TEXT;END C;"),
    (6, "CLASS C=a(^TRANSIENT):TEXT;END C;"),
    (5, "CLASS C=a:TEXT^:=\"x\";END C;"),
    (6, "STRUCTURE S=END S;CLASS C=a:^BAG OF S;END C;"),
    (6, "STRUCTURE S=END S;CLASS C=a:^LIST OF S;END C;"),
    (6, "CLASS B=END B;CLASS C=a:^REFERENCE TO B;END C;"),
    (6, "CLASS C=a:^ANYSTRUCTURE;END C;"),
    (6, "STRUCTURE S=END S;CLASS C=a:S ^RESTRICTION(S);END C;"),
    (
        0,
        "CLASS B=a:TEXT*5;END B;CLASS C EXTENDS B=a(EXTENDED):MANDATORY;END C;",
    ),
    (5, "CLASS C=a:MANDATORY^;END C;"),
    (9, "CLASS B=a:TEXT;END B;CLASS C EXTENDS B=^a:TEXT;END C;"),
    (10, "CLASS C=^a(EXTENDED):TEXT;END C;"),
    (
        12,
        "CLASS B=a(FINAL):TEXT;END B;CLASS C EXTENDS B=^a(EXTENDED):TEXT*5;END C;",
    ),
    (
        0,
        "DOMAIN D(FINAL)=TEXT;CLASS B=a:D;END B;CLASS C EXTENDS B=a(EXTENDED):MANDATORY D;END C;",
    ),
];

/// Sections 3.8 and 3.8.1: domains and texts.
const DOMAINS: [(u8, &str); 11] = [
    (5, "DOMAIN Value(ABSTRACT)=NUMERIC^..NUMERIC;"),
    (0, "DOMAIN Value(ABSTRACT)=NUMERIC;General EXTENDS Value=0.0..100.0;Special EXTENDS General=20.0..90.0;"),
    (17, "DOMAIN Value(ABSTRACT)=NUMERIC;General EXTENDS Value=10.0..100.0;Special EXTENDS General=^0.0..110.0;"),
    (6, "DOMAIN A(^GENERIC)=TEXT;"),
    (6, "DOMAIN A=TEXT*5 ^CONSTRAINTS c:TEXT;"),
    (0, "DOMAIN Address(FINAL)=TEXT*1023;Label(FINAL)=TEXT*255;"),
    (6, "DOMAIN A=^URI;"),
    (6, "DOMAIN A=^NAME;"),
    (12, "DOMAIN Label(FINAL)=TEXT*255;Short EXTENDS ^Label=TEXT*20;"),
    (0, "DOMAIN Line=TEXT*80;Block=MTEXT*80;Word EXTENDS Line=TEXT*20;"),
    (17, "DOMAIN Word=TEXT*20;Line EXTENDS Word=^TEXT*80;"),
];

/// Section 3.8.2: enumerations.
const ENUMERATIONS: [(u8, &str); 14] = [
    (0, "DOMAIN Paint=(red(dark,orange,carmine),yellow,green(light,dark));"),
    (6, "DOMAIN Height=(low,middle,high)^ORDERED;"),
    (6, "DOMAIN Day=(work(mo,tu,we,th,fr,sa),su)^CIRCULAR;"),
    (0, "DOMAIN Day=(work(mo,tu,we,th,fr,sa),su);"),
    (6, "DOMAIN Day=(mo,tu);AnyDay=^ALL OF Day;"),
    (5, "DOMAIN Paint=(red);More EXTENDS Paint=(red^.dark);"),
    (
        0,
        "DOMAIN Paint=(red,yellow,green);More EXTENDS Paint=(red(dark,orange,carmine),green(light,dark:FINAL),blue);\
         Most EXTENDS More=(red(FINAL),blue(light,dark));",
    ),
    (
        17,
        "DOMAIN Paint=(red,yellow,green);More EXTENDS Paint=(green(light,dark:FINAL));\
         Most EXTENDS More=^(green(pale));",
    ),
    (
        17,
        "DOMAIN Paint=(red,yellow);More EXTENDS Paint=(red(dark));Most EXTENDS More=(red(FINAL));\
         Last EXTENDS Most=^(red(pale));",
    ),
    (9, "DOMAIN Paint=(red(dark,light),green(dark,light),^red);"),
    (0, "DOMAIN Paint=(red(dark),green(dark));"),
    (6, "DOMAIN Paint=(red,^OTHERS);"),
    (2, "DOMAIN Paint=(red)^#red;"),
    (15, "DOMAIN Paint=^(FINAL);"),
];

/// Sections 2.8 and 3.8.5: numbers and their rounding.
const NUMBERS: [(u8, &str); 13] = [
    (6, "DOMAIN Angle=0.00..359.99 ^CIRCULAR;"),
    (10, "DOMAIN Angle=0.00..359.99 [^degree];"),
    (14, "DOMAIN Angle=^0.00..360.000;"),
    (0, "DOMAIN Usual=0.00..7.99;Exact EXTENDS Usual=0.0000..7.9949;"),
    (17, "DOMAIN Usual=0.00..7.99;Exact EXTENDS Usual=^0.0000..7.9999;"),
    (0, "DOMAIN Usual=0.00..7.99;Narrow EXTENDS Usual=1.00..6.99;"),
    (14, "DOMAIN Usual=0.00..7.99;Narrow EXTENDS Usual=^100..6.99;"),
    (0, "DOMAIN Length(ABSTRACT)=NUMERIC;Metres(ABSTRACT) EXTENDS Length=NUMERIC;Pole EXTENDS Metres=0.00..100.00;"),
    (10, "DOMAIN Length(ABSTRACT)=NUMERIC[^m];"),
    (2, "DOMAIN Length=0.00..100.00^{m};"),
    (6, "DOMAIN Angle=0.0..^PI;"),
    (6, "DOMAIN Angle=0.0..359.9 ^CLOCKWISE;"),
    (13, "DOMAIN ^Length=NUMERIC;"),
];

/// The annexes: streets, time of day and dates, parcels, days.
const ANNEXES: [(u8, &str); 14] = [
    (
        0,
        "TOPIC Streets=CLASS Ground=Sort:MANDATORY(house,street,water,rest);END Ground;\
         CLASS Street=Label:MANDATORY TEXT*32;END Street;\
         CLASS Sign=Sort:MANDATORY(ban,hint,danger,speed);END Sign;END Streets;\
         TOPIC More=CLASS Sign EXTENDS M.Streets.Sign=Sort(EXTENDED):(ban(entry,parking,rest));END Sign;\
         CLASS Axis=Exactness:MANDATORY(exact,inexact);END Axis;END More;",
    ),
    (6, "DOMAIN Point=^COORD 0.000..200.000,0.000..200.000;"),
    (6, "CLASS Ground=Shape:MANDATORY ^SURFACE WITH(STRAIGHTS);END Ground;"),
    (6, "CLASS Axis=Shape:MANDATORY ^POLYLINE;END Axis;"),
    (5, "TOPIC T=CLASS Sign(^EXTENDED)=END Sign;END T;"),
    (
        0,
        "STRUCTURE Time(ABSTRACT)=Hours:0..23;Minutes:0..59;Seconds:0.000..59.999;END Time;\
         STRUCTURE Universal EXTENDS Time=Hours(EXTENDED):0..23;END Universal;",
    ),
    (
        0,
        "DOMAIN Year=1582..2999;STRUCTURE Date=Year:Year;Month:1..12;Day:1..31;END Date;\
         STRUCTURE Moment EXTENDS Date=Hours:0..23;Minutes:0..59;Seconds:0.000..59.999;END Moment;",
    ),
    (10, "STRUCTURE Moment EXTENDS ^Moment=END Moment;"),
    (
        0,
        "STRUCTURE Piece(ABSTRACT)=End:MANDATORY TEXT;END Piece;STRUCTURE First(FINAL) EXTENDS Piece=END First;\
         STRUCTURE Straight(FINAL) EXTENDS Piece=END Straight;",
    ),
    (
        12,
        "STRUCTURE Piece=END Piece;STRUCTURE First(FINAL) EXTENDS Piece=END First;\
         STRUCTURE Next EXTENDS ^First=END Next;",
    ),
    (13, "STRUCTURE Arc=^Radius:NUMERIC;END Arc;"),
    (
        0,
        "TOPIC Land=CLASS Parcel=Number:1..99999;END Parcel;END Land;\
         TOPIC Places=CLASS Place=Label:TEXT*30;END Place;END Places;",
    ),
    (8, "TOPIC Places=CLASS Place=Label:TEXT*30;END Place;END ^Place;"),
    (6, "DOMAIN Days=^FORMAT BASED ON Date(Year);"),
];

/// Heads of models and the language's name.
const TEXTS: [(u8, &str); 9] = [
    (0, "INTERLIS 2.4;MODEL Streets(en)AT \"http://streets.example\"VERSION \"2026-01-31\"=END Streets."),
    (6, "INTERLIS 2.4;^CONTRACTED MODEL M AT \"u\" VERSION \"1\"=END M."),
    (6, "INTERLIS 2.4;^REFSYSTEM MODEL M AT \"u\" VERSION \"1\"=END M."),
    (6, "INTERLIS 2.4;MODEL M ^NOINCREMENTALTRANSFER AT \"u\" VERSION \"1\"=END M."),
    (6, "INTERLIS 2.4;MODEL M AT \"u\" VERSION \"1\" ^TRANSLATION OF N[\"1\"]=END M."),
    (2, "INTERLIS 2.4;MODEL M AT \"u\" VERSION \"1\" ^// why //=END M."),
    (5, "INTERLIS 2.4;MODEL M AT \"u\" ^=END M."),
    (0, "INTERLIS 2.4;MODEL M AT \"\\u00E9\\\"\\\\\" VERSION \"\"=END M."),
    (7, "INTERLIS ^2.3;MODEL M AT \"u\" VERSION \"1\"=END M."),
];

pub fn manual() -> Vec<Stored> {
    let bodies: [&[(u8, &str)]; 7] = [
        &SYMBOLS,
        &MODELS,
        &ATTRIBUTES,
        &DOMAINS,
        &ENUMERATIONS,
        &NUMBERS,
        &ANNEXES,
    ];
    let bodies = bodies.into_iter().flatten();
    let mut all: Vec<Stored> = bodies
        .map(|(number, body)| Stored::body(*number, body))
        .collect();
    all.extend(
        TEXTS
            .iter()
            .map(|(number, text)| Stored::marked(*number, text)),
    );
    all
}
