//! The elements that the reader knows, as the D16B binding nests them, for the generator.

/// What an element holds.
#[derive(Clone, Copy)]
pub enum Part {
    Text,
    Identifier,
    Currency,
    Amount,
    Percent,
    Date,
    Indicator,
    PointCode,
    TaxType,
    Category,
    Group(&'static [(&'static str, Part)]),
}
use Part::*;

/// The fourteen children of a settlement.
pub const SETTLEMENT: &[(&str, Part)] = &[
    ("CreditorReferenceID", Text),
    ("PaymentReference", Text),
    ("TaxCurrencyCode", Currency),
    ("InvoiceCurrencyCode", Currency),
    ("PayeeTradeParty", Group(PAYEE)),
    ("SpecifiedTradeSettlementPaymentMeans", Group(PAYMENT_MEANS)),
    ("ApplicableTradeTax", Group(TRADE_TAX)),
    ("BillingSpecifiedPeriod", Group(PERIOD)),
    ("SpecifiedTradeAllowanceCharge", Group(ALLOWANCE_CHARGE)),
    ("SpecifiedLogisticsServiceCharge", Group(LOGISTICS_CHARGE)),
    ("SpecifiedTradePaymentTerms", Group(TERMS)),
    ("SpecifiedTradeSettlementHeaderMonetarySummation", Group(SUMMATION)),
    ("InvoiceReferencedDocument", Group(PRECEDING)),
    ("ReceivableSpecifiedTradeAccountingAccount", Group(&[("ID", Text)])),
];

const PAYEE: &[(&str, Part)] = &[
    ("ID", Identifier),
    ("GlobalID", Identifier),
    ("Name", Text),
    ("SpecifiedLegalOrganization", Group(&[("ID", Identifier)])),
];

const PAYMENT_MEANS: &[(&str, Part)] = &[
    ("TypeCode", Text),
    ("Information", Text),
    ("ApplicableTradeSettlementFinancialCard", Group(&[("ID", Text), ("CardholderName", Text)])),
    ("PayerPartyDebtorFinancialAccount", Group(&[("IBANID", Text), ("ProprietaryID", Text)])),
    ("PayeePartyCreditorFinancialAccount", Group(&[("IBANID", Text), ("AccountName", Text), ("ProprietaryID", Text)])),
    ("PayeeSpecifiedCreditorFinancialInstitution", Group(&[("BICID", Text)])),
];

const TRADE_TAX: &[(&str, Part)] = &[
    ("CalculatedAmount", Amount),
    ("TypeCode", TaxType),
    ("ExemptionReason", Text),
    ("BasisAmount", Amount),
    ("CategoryCode", Category),
    ("ExemptionReasonCode", Text),
    ("TaxPointDate", Date),
    ("DueDateTypeCode", PointCode),
    ("RateApplicablePercent", Percent),
];

const PERIOD: &[(&str, Part)] = &[("StartDateTime", Date), ("EndDateTime", Date)];

const CATEGORY_TAX: Part =
    Group(&[("TypeCode", TaxType), ("CategoryCode", Category), ("RateApplicablePercent", Percent)]);

const ALLOWANCE_CHARGE: &[(&str, Part)] = &[
    ("ChargeIndicator", Group(&[("Indicator", Indicator)])),
    ("CalculationPercent", Percent),
    ("BasisAmount", Amount),
    ("ActualAmount", Amount),
    ("ReasonCode", Text),
    ("Reason", Text),
    ("CategoryTradeTax", CATEGORY_TAX),
];

const LOGISTICS_CHARGE: &[(&str, Part)] =
    &[("Description", Text), ("AppliedAmount", Amount), ("AppliedTradeTax", CATEGORY_TAX)];

const TERMS: &[(&str, Part)] = &[("Description", Text), ("DueDateDateTime", Date), ("DirectDebitMandateID", Text)];

pub const SUMMATION: &[(&str, Part)] = &[
    ("LineTotalAmount", Amount),
    ("ChargeTotalAmount", Amount),
    ("AllowanceTotalAmount", Amount),
    ("TaxBasisTotalAmount", Amount),
    ("TaxTotalAmount", Amount),
    ("TaxTotalAmount", Amount),
    ("RoundingAmount", Amount),
    ("GrandTotalAmount", Amount),
    ("TotalPrepaidAmount", Amount),
    ("DuePayableAmount", Amount),
];

const PRECEDING: &[(&str, Part)] = &[("IssuerAssignedID", Text), ("FormattedIssueDateTime", Date)];

/// Names that the reader maps nowhere, some with long common beginnings, one outside ASCII.
pub const STRANGERS: &[&str] = &[
    "Foo",
    "foo",
    "Größe",
    "A",
    "AB",
    "_",
    "ApplicableTradeTaxes",
    "ApplicableTradeTa",
    "applicableTradeTax",
    "ApplicableTradeCurrencyExchange",
    "SpecifiedAdvancePayment",
    "TaxTotalAmounts",
    "PayerSpecifiedDebtorFinancialInstitution",
    "SpecifiedTradeSettlementHeaderMonetarySummatioN",
];
